# shellcheck shell=bash
# For bash: `begin KEY CALLED [CALLING]` prints a Begin with InitialDP and national numbers, in a line, for `scp ask`.

# An element: its tag, its length, its contents; all as hexadecimal digits.
element() { printf '%s%02X%s' "$1" $((${#2} / 2)) "$2"; }
# A number that is not negative, as a signed integer: a first octet of 80 or above gets 00 before it.
integer() {
    local hex; hex=$(printf %X "$1")
    if ((${#hex} % 2)); then hex=0$hex; fi
    if [[ $hex == [89A-F]* ]]; then hex=00$hex; fi
    echo "$hex"
}
# A national number: odd or even, the second octet, and the digits in swapped pairs.
number() {
    local digits=$1 first=03
    if ((${#1} % 2)); then digits+=0 first=83; fi
    printf '%s%s' $first "$2"
    sed 's/\(.\)\(.\)/\2\1/g' <<< "$digits"
}
begin() {
    local argument
    argument=$(element 80 "$(integer "$1")")$(element 82 "$(number "$2" 10)")
    if [ "${3:-}" ]; then argument+=$(element 83 "$(number "$3" 13)"); fi
    argument+=$(element 85 0A)$(element 9C 03)
    element 62 "$(element 48 0000002A)$(element 6C "$(element A1 020101020100"$(element 30 "$argument")")")"
    echo
}
