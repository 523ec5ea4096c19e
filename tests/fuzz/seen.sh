#!/bin/sh
# seen.sh PROGRAM LOG: whether a run of it gave each of its answers, and met a type 26 that decides in each way, at least once: what is not
# reached is not tested.
rates='another-vendor under-length-6 twice other-item item-length past-type-26 past-group lone-byte rate-length rate-twice rate-twice-in-groups
    fifth-group no-rate-402 no-rate-ack down-ack up-ack both-ack four-groups-ack'
case $1 in
handle) answers='0 1 2 3 4 101 102 103 104 105 106 401 402 403 404 405 503 506' ;;
write) answers='0 2 4 12 13' rates= ;;
check_reply) answers='0 2 201 202 203 204 205 206' rates= ;;
scheduler) answers='0 1 2 3 4 5 6 7 8 9 10 11 101 102 103 104 105 106 401 402 403 404 405 503 506 600' ;;
*) echo "seen: no program is named $1" >&2; exit 1 ;;
esac
told=$(grep -E '^(answers|type 26):' "$2")
for one in $answers $rates; do
    case $told in *" $one("*) ;; *) echo "    never reached: $one"; exit 1 ;; esac
done
