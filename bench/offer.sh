# To be sourced. offer_socket PATH, offer_terminal LINK: a fresh modem of $kind, behind a Unix socket or behind a raw
# pseudo terminal, among what was $started: the stand-in $folder/answering or, where MODEM=sim, the simulated modem of
# $program.
offer_socket() {
    case $MODEM in
    sim) "$program" modem-sim --kind="$kind" --socket="$1" --profile="$folder/profile.json" 2>>"$folder/log" & ;;
    *) "$folder/answering" unix "$1" & ;;
    esac
    started="$started $!"
    wait_until test -S "$1"
}

offer_terminal() {
    case $MODEM in
    sim)
        offer_socket "$1.sock"
        socat "PTY,link=$1,raw,echo=0" "UNIX-CONNECT:$1.sock" 2>>"$folder/log" & ;;
    *) "$folder/answering" pty "$1" & ;;
    esac
    started="$started $!"
    wait_until test -e "$1"
}

# wait_until CONDITION WORD..
wait_until() {
    tries=0
    until "$@" 2>/dev/null; do
        tries=$((tries + 1))
        [ "$tries" -le 200 ] || { echo "waited in vain: $*" >&2; cat "$folder/log" >&2; exit 70; }
        sleep 0.05
    done
}

cat >"$folder/profile.json" <<'P'
{"phonebook": [{"number": "+15550101", "name": "Ada"}, {"number": "+15550102", "name": "Grace"},
  {"number": "+15550103", "name": "Barbara"}, {"number": "+15550104", "name": "Frances"},
  {"number": "+15550105", "name": "Radia"}, {"number": "+15550106", "name": "Karen"}],
 "sms": ["0791447758100650040C9144775810065000002080214152100004D4F29C0E", "00"]}
P
