# Gives fmt one line, and reads its answer before there is a second one.
coproc ./qds fmt
exec 3<&"${COPROC[0]}" 4>&"${COPROC[1]}"
printf '==PROTOCOL\t1\n' >&4
read -r -t 10 line <&3
echo "at once: $line"
echo ==END >&4
cat <&3
