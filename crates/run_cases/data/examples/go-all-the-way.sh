#!/bin/sh
# From a folder of configurations to new ones: audit, design, check, rewrite, and the audit of what was rewritten. Stops
# at the first status that isn't 0, says which step that was, and ends with that status.
#
#     go-all-the-way.sh REQUEST OLD NEW
#
# OLD has the configurations, ROUTER.conf each. The folder NEW is made; it gets audit.txt, answer.txt, check.txt, the
# new configurations under their old names, and audit-new.txt. Settings of the environment:
#
#     OSPFCOST   the program (unless told, the one of this repository)
#     CHECKER    the program that checks (unless told, OSPFCOST): another build, or a command that runs one on another
#                machine that sees the same folders
set -eu

if [ $# -ne 3 ]; then
    echo "usage: $0 REQUEST OLD NEW" >&2
    exit 7
fi
request=$1
old=$2
new=$3
program=${OSPFCOST:-$(cd "$(dirname "$0")" && pwd -P)/../../../../ospfcost}
checker=${CHECKER:-$program}

# The name of an exit status.
name_of() {
    case $1 in
        1) echo impossible ;;
        2) echo undecided ;;
        3) echo 'input refused' ;;
        4) echo 'read fault' ;;
        5) echo 'write fault' ;;
        6) echo 'out of memory' ;;
        7) echo 'words refused' ;;
        8) echo 'evidence refused' ;;
        *) echo 'not a status of ospfcost' ;;
    esac
}

# step OUTPUT COMMAND..: runs a command, with its output in a file of NEW.
step() {
    output=$new/$1
    shift
    status=0
    "$@" >"$output" || status=$?
    if [ "$status" -ne 0 ]; then
        echo "stopped with status $status, $(name_of "$status"): $2, output in $output" >&2
        exit "$status"
    fi
}

mkdir "$new"
step audit.txt "$program" audit --request "$request" "$old"/*.conf
step answer.txt "$program" design --request "$request" "$old"/*.conf
step check.txt "$checker" check --request "$request" --answer "$new/answer.txt" "$old"/*.conf
for configuration in "$old"/*.conf; do
    step "$(basename "$configuration")" "$program" rewrite --answer "$new/answer.txt" "$configuration"
done
step audit-new.txt "$program" audit --request "$request" "$new"/*.conf
cat "$new/check.txt" "$new/audit-new.txt"
