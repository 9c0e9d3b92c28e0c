#!/usr/bin/env bash
# long.sh NAME prints a text too long to be stored; long.sh alone prints the names.
set -euo pipefail

zeros() { head -c "$1" /dev/zero | tr '\0' 0; }
noise() { head -c "$1" /dev/zero | tr '\0' x; }
foreign() { awk -v n="$1" 'BEGIN { for (i = 1; i <= n; i++) print "F " i }'; }

leading-zeros() { echo "commands $(zeros 100000)0"; echo "records 1"; echo "F $(zeros 100000)5"; }
leading-zeros-past() { echo "commands 0"; echo "records 1"; echo "F $(zeros 100000)18446744073709551616"; }
version-zeros() { echo "commands 0"; echo "records 1"; echo "H 5 $(zeros 70000)1 1 1 1 - 0"; }
noise-first() { noise 1000000; echo; }
noise-first-without-newline() { noise 1000000; }
noise-record() { echo "commands 0"; echo "records 2"; echo "F 5"; noise 1000000; echo; }
noise-behind() { echo "commands 0"; echo "records 1"; echo "F 5"; noise 1000000; }
noise-behind-refused() { echo "commands 0"; echo "records 3"; echo "F 5"; echo "F 5"; noise 1000000; echo; }
spaces() { echo "commands 0"; echo "records 1"; echo "F 5$(noise 200000 | tr x ' ')"; }
command-long() { echo "commands 1"; zeros 1000000; echo; echo "records 0"; }
checksum-long() { echo "commands 0"; echo "records 1"; echo "P 5 1 1 1 7 5 2 5 9 3 $(zeros 100000)"; }
nul() { head -c 300000 /dev/zero; }
newlines() { head -c 300000 /dev/zero | tr '\0' '\n'; }
foreign-4096() { echo "commands 0"; echo "records 4096"; foreign 4096; }
foreign-4095-of-4096() { echo "commands 0"; echo "records 4096"; foreign 4095; }
foreign-4097-of-4096() { echo "commands 0"; echo "records 4096"; foreign 4097; }
foreign-4097() { echo "commands 0"; echo "records 4097"; foreign 4097; }
refused-last() { echo "commands 0"; echo "records 4096"; foreign 4095; echo "F 4095"; }
commands-256() { echo "commands 256"; awk 'BEGIN { for (i = 0; i < 256; i++) { for (j = 0; j < 65; j++) printf "%02x", i; print "" } }'; echo "records 1"; echo "E 5 1 1 1 1 1 N 256"; }
entries-512() {
    echo "commands 1"; echo "$(zeros 128)"; echo "records 512"
    awk 'BEGIN { for (p = 1; p <= 8; p++) for (q = 1; q <= 64; q++) printf "E %d 1 %d 18446744073709551615 %d 18446744073709551615 N 1\n", 64 * p + q, p, q }'
}

names=$(declare -F | awk '{print $3}' | grep -vxE 'zeros|noise|foreign')
if [ $# -eq 0 ]; then echo "$names"; else grep -qxF -- "$1" <<<"$names"; "$1"; fi
