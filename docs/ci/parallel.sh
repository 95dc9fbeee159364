#!/bin/sh
# Stored cases by GNU parallel: parallel.sh PARTS OUT DIR. MACHINES, as 4/one,4/two, says how many parts each runs at once;
# OUT and DIR are at one place on each. A part that fails or is lost is run again; called again, so are those not done.
mkdir -p "$2"
seq "$1" | parallel --sshlogin "${MACHINES:-:}" --workdir . --retries 2 --joblog "$2/log" --resume-failed \
    "${RUNALL:-vindaesk-runall}" "$3" --jobs 1 --shard "{}/$1" --junit "$2/{}.xml"
"${RUNALL:-vindaesk-runall}" --merge "$2"/*.xml --of "$3" --junit "$2.xml"
