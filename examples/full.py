"""Prints a script that fills the history to its last event, and then puts one more, which would take one out."""
MOST = 262_144
print('==PROTOCOL\t1\n==HISTORY_ADD_SUBSCRIPTION\nOrder\tA\t0\n==HISTORY_DATA')
for index in range(MOST - 1, -1, -1):
    flags = 4 if index == MOST - 1 else 8 if index == 0 else 0
    print(f'Order\tA\t{index}\t{flags}\t100\t1\t0')
print('==TAKE\tHISTORY\t1\n==HISTORY_DATA\nOrder\tA\t5\t2\t0\t0\t0\n==TAKE\tHISTORY\t1\n==END')
