"""Slightly wrong programs: each is the good one with one thing changed, in its words and input, or in what it answers.

A filter is a function from the words, the input and a call that runs the good program on both to what is answered; its first
line says what is wrong. `checks/wrong/run` makes a program of each. The last ones are no filters, but programs of the shell: they
change when something is written, or do not run at all."""
import re

LONG = 65_536


def on_lines(out, change):
    """Each line of an output changed; none where the change tells None."""
    return b'\n'.join(it for it in map(change, out.split(b'\n')) if it is not None)


def on_parts(out, change):
    """Each line of an output that is an item of a group, changed as a list of parts."""
    return on_lines(out, lambda line: line if line[:1] in b'=#' else b'\t'.join(change(line.split(b'\t'))))


def on_numbers(out, change):
    """Each number behind a symbol changed."""
    return on_parts(out, lambda parts: parts[:2] + [change(it) for it in parts[2:]])


def replies(out):
    """The output cut behind each heartbeat."""
    return re.split(rb'(?<===HEARTBEAT\n)', out)


def faithful(words, given, good):
    """Nothing is wrong."""
    return good(words, given)


def a_byte_of_a_long_output_differs(words, given, good):
    status, out, line = good(words, given)
    return status, out[:LONG] + bytes([out[LONG] ^ 1]) + out[LONG + 1:] if len(out) > LONG else out, line


def a_very_long_output_loses_a_byte(words, given, good):
    status, out, line = good(words, given)
    return status, out[:2 * LONG + 5] + out[2 * LONG + 6:], line


def the_last_heartbeat_is_left_out(words, given, good):
    status, out, line = good(words, given)
    before, found, behind = out.rpartition(b'==HEARTBEAT\n')
    return status, before + behind if words[:1] == [b'replay'] else out, line


def wrong_words_have_status_1(words, given, good):
    status, out, line = good(words, given)
    return 1 if status == 2 else status, out, line


def a_read_fault_has_status_4(words, given, good):
    status, out, line = good(words, given)
    return 4 if status == 3 else status, out, line


def two_items_of_the_ticker_change_places(words, given, good):
    status, out, line = good(words, given)
    lines = out.split(b'\n')
    at = [place for place, text in enumerate(lines[:-3]) if text == b'==TICKER_DATA' and words[:1] == [b'replay'] and lines[place + 2][:1] not in b'=#']
    for place in at[-1:]:
        lines[place + 1], lines[place + 2] = lines[place + 2], lines[place + 1]
    return status, b'\n'.join(lines), line


def the_4096th_item_of_a_reply_is_lost(words, given, good):
    status, out, line = good(words, given)

    def short(reply):
        items = [place for place, text in enumerate(reply.split(b'\n')) if text[:1] not in b'=#']
        lines = reply.split(b'\n')
        return b'\n'.join(lines[:items[4095]] + lines[items[4095] + 1:]) if len(items) >= 4096 else reply
    return status, b''.join(map(short, replies(out))), line


def counts_above_100_are_one_too_many(words, given, good):
    status, out, line = good(words, given)
    return status, re.sub(rb'^items (\d{3,})$', lambda it: b'items %d' % (int(it[1]) + 1), out, flags=re.M), line


def symbols_are_cut_at_63_bytes(words, given, good):
    status, out, line = good(words, given)
    return status, on_parts(out, lambda parts: parts[:1] + [it[:63] for it in parts[1:2]] + parts[2:]), line


def numbers_above_2_to_53_are_rounded(words, given, good):
    status, out, line = good(words, given)
    return status, on_numbers(out, lambda it: str(int(float(it))).encode() if it.isdigit() and int(it) > 2**53 else it), line


def caps_above_100_are_100(words, given, good):
    words = [b'100' if before == b'--cap' and it.isdigit() and 100 < int(it) <= 4096 else it for before, it in zip([b''] + words, words)]
    return good(words, given)


def a_third_loss_of_a_reply_is_not_told(words, given, good):
    status, out, line = good(words, given)
    return status, re.sub(rb'(==STREAM_LOST\n[^=\n]+\n[^=\n]+\n)[^=\n]+\n', rb'\1', out) if words[:1] == [b'replay'] else out, line


def the_second_key_of_a_remove_stays(words, given, good):
    return good(words, re.sub(rb'(_REMOVE_SUBSCRIPTION\n[^=\n]+\n)[^=\n]+\n', rb'\1#\n', given) if words[:1] == [b'replay'] else given)


def links_are_told_modulo_100(words, given, good):
    status, out, line = good(words, given)
    return status, re.sub(rb'^#LINK\t(\d+)', lambda it: b'#LINK\t%d' % (int(it[1]) % 100), out, flags=re.M), line


def hangs_on_an_empty_input(words, given, good):
    while not given and words:
        import time
        time.sleep(1)
    return good(words, given)


def crashes_on_a_long_line(words, given, good):
    if any(len(it) > 4000 for it in given.split(b'\n')):
        import os
        os.kill(os.getpid(), 11)
    return good(words, given)


def prints_nothing(words, given, good):
    return 0, b'', b''


def every_run_ends_well(words, given, good):
    return 0, *good(words, given)[1:]


def the_ninth_digit_of_a_fraction_is_left_out(words, given, good):
    status, out, line = good(words, given)
    return status, on_numbers(out, lambda it: re.sub(rb'(\.\d{8})\d$', rb'\1', it)), line


def losses_stop_at_2_to_63(words, given, good):
    status, out, line = good(words, given)
    most = 2**63 - 1
    return status, on_numbers(out, lambda it: b'%d' % most if it.isdigit() and int(it) > most else it), line


def takes_above_100_give_100(words, given, good):
    return good(words, re.sub(rb'^(==TAKE\t\w+\t)\d{3,4}$', rb'\g<1>100', given, flags=re.M) if words[:1] == [b'replay'] and len(given) > 3000 else given)


def flags_of(out, change):
    """The flags of each event changed: an index and flags stand before at least three cells."""
    def changed(parts):
        if len(parts) > 5 and parts[0] in (b'Candle', b'Order') and parts[3].isdigit():
            parts[3] = b'%d' % change(int(parts[3]))
        return parts
    return on_parts(out, changed)


def replays_with(words, given, good, change):
    status, out, line = good(words, given)
    return status, flags_of(out, change) if words[:1] == [b'replay'] else out, line


def events_are_given_without_pending(words, given, good):
    return replays_with(words, given, good, lambda flags: flags & ~1)


def a_snip_is_told_as_an_end(words, given, good):
    return replays_with(words, given, good, lambda flags: flags & ~16 | 8 if flags & 16 else flags)


def a_begin_on_a_marker_is_left_out(words, given, good):
    return replays_with(words, given, good, lambda flags: flags & ~4 if flags & 14 == 14 else flags)


def a_marker_has_a_price(words, given, good):
    status, out, line = good(words, given)

    def changed(parts):
        if len(parts) > 5 and parts[3] in (b'10', b'14', b'18', b'22'):
            parts[4] = b'1'
        return parts
    return status, on_parts(out, changed) if words[:1] == [b'replay'] else out, line


def indexes_lose_their_last_bit_above_2_to_53(words, given, good):
    status, out, line = good(words, given)

    def changed(parts):
        if len(parts) > 4 and parts[2].isdigit() and int(parts[2]) > 2**53 and words[:1] == [b'replay']:
            parts[2] = b'%d' % (int(parts[2]) & ~1)
        return parts
    return status, on_parts(out, changed), line


def places_above_200_are_told_as_200(words, given, good):
    status, out, line = good(words, given)
    return status, out, re.sub(rb'place (\d+)', lambda it: b'place %d' % min(200, int(it[1])), line)


def a_long_text_is_cut_off_one_line_late(words, given, good):
    status, out, line = good(words, given)
    return status, out, re.sub(rb'after line (\d\d+)', lambda it: b'after line %d' % (int(it[1]) + 1), line)


def the_eleventh_record_is_told_as_the_tenth(words, given, good):
    status, out, line = good(words, given)
    return status, on_parts(out, lambda parts: [b'R9' if it == b'R10' else it for it in parts[:1]] + parts[1:]), line


def an_hcap_above_4_is_4(words, given, good):
    words = [b'4' if before == b'--hcap' and it.isdigit() and 4 < int(it) <= 4096 else it for before, it in zip([b''] + words, words)]
    return good(words, given)


def nothing_stands_before_a_wrong_step(words, given, good):
    status, out, line = good(words, given)
    return status, b'' if b'BadStep' in line else out, line


def a_line_of_4096_bytes_is_too_long(words, given, good):
    place = next((place for place, text in enumerate(given.split(b'\n'), 1) if len(text) == 4096), None)
    return good(words, given) if place is None else (1, b'', b'qds: line %d: LineTooLong\n' % place)


def what_follows_the_end_is_read(words, given, good):
    before, end, behind = given.partition(b'\n==END\n')
    return (1, b'', b'qds: line %d, place 1: Order\n' % (before.count(b'\n') + 3)) if behind else good(words, given)


def too_many_pairs_are_told_as_keys(words, given, good):
    status, out, line = good(words, given)
    return status, out, line.replace(b'TooManySubs', b'TooManyKeys')


def a_word_that_is_not_utf_8_is_a_name(words, given, good):
    status, out, line = good(words, given)
    return (3, b'', b'qds: read fault\n') if any(byte > 0x7F for word in words[1:] for byte in word) and status == 2 else (status, out, line)


def a_fraction_below_0_loses_its_minus(words, given, good):
    status, out, line = good(words, given)
    return status, on_numbers(out, lambda it: re.sub(rb'^-(0\.)', rb'\1', it)), line


def a_cap_of_4096_lets_4095_wait(words, given, good):
    return good([b'4095' if before == b'--cap' and it == b'4096' else it for before, it in zip([b''] + words, words)], given)


FILTERS = {name: it for name, it in list(globals().items()) if callable(it) and getattr(it, '__code__', None) is not None
           and it.__code__.co_varnames[:it.__code__.co_argcount] == ('words', 'given', 'good')}

SHELL = {
    # The good program under a shell.
    'faithful_shell': '"$good" "$@"',
    # As the good program, but what is printed waits for the end of the input.
    'output_waits_for_the_end': 'held=$(mktemp); "$good" "$@" >"$held"; status=$?; cat "$held"; rm -f "$held"; exit $status',
    # The line on the fault is written in two pieces.
    'the_line_on_a_fault_is_two_writes': 'told=$(mktemp); "$good" "$@" 2>"$told"; status=$?; if [ -s "$told" ]; then printf "qds: " >&2; tail -c +6 "$told" >&2; fi; rm -f "$told"; exit $status',
    # Ctrl-C is not heard.
    'an_interrupt_is_passed_over': 'trap "" INT; exec "$good" "$@"',
    'hangs_always': 'while :; do sleep 5; done',
    'crashes_always': 'kill -SEGV $$',
    # Nothing can be run at all.
    'cannot_be_started': None,
}
