# Measures tools/log beside a script of thirty lines and one thread, checks/program/counter.py, on a drawn log of a web
# server or a spreadsheet: the seconds of each, those of processors, and what the tool takes of the script's. The first
# time it proves and builds the program. Both count the same, or it fails.
#
# usage: bench/run log [LINES [FORM]]
#   LINES   how many lines the log has (1000000)
#   FORM    of what form it is: combined, syslog, json, or csv, of a spreadsheet (combined)
#
# Each is run three times, in turns, and the least counts. On other work's processors only the processors' seconds say
# much. It needs GNU time. With the default it takes two minutes, and beside other work four.

"$root/likes" >/dev/null || exit
cd -- "$work" || exit 3
form=${2:-combined}
like='POST /like(/articles/[^? ]*)'
look='GET (/articles/[^? ]*)'
case $form in
combined | syslog) kind=--combined ;;
json) kind=--from-json ;;
csv) kind=--columns=Aktion,Wer,Seite like='gefällt mir' look=angesehen ;;
*) fail "there is no form $form: bench/run log -h lists them" ;;
esac
python3 "$root/checks/program/weblog.py" "${1:-1000000}" "$form" >access.log || exit 3
mkdir script
for _ in 1 2 3; do
    rm -rf answer
    cost_of python3 "$root/checks/program/counter.py" "$form" access.log script | sed 's/^/script /'
    cost_of "$root/tools/log" access.log "$kind" --like "$like" --look "$look" 2>/dev/null | sed 's/^/tool /'
done >costs
cmp script/pages.csv answer/pages.csv || fail 'the tool and the script count otherwise'
awk '
!($1 in clock) || $2 < clock[$1] { clock[$1] = $2 }
!($1 in processors) || $3 < processors[$1] { processors[$1] = $3 }
END {
    printf "%-8s%9s%12s\n", "", "seconds", "processors"
    split("script tool", names)
    for (i = 1; i <= 2; i++) printf "%-8s%9.1f%12.1f\n", names[i], clock[names[i]], processors[names[i]]
    printf "%-8s%9.2f%12.2f\n", "ratio", clock["tool"] / clock["script"], processors["tool"] / processors["script"]
}' costs
