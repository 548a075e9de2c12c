#!/bin/sh
# Tries tools/batch: many textures by Snakemake on this machine, and on Slurm.
#
#   checks/batch.sh [COUNT]
#
# Makes COUNT (200) textures of a table on all processors and verifies each, in at least 0.9 times
# the speed that one processor gives, times the processors; that is judged on a machine with nothing
# else to do. Then come a call with nothing to do, a row that fails, a job that is
# killed, a changed program and wrong tables. On Slurm it makes textures on two nodes of this
# machine, and cancels one job: a Slurm of its own, whose daemons end with the script. That part
# needs root, and Debian's slurm-wlm and munge; the first one needs snakemake and time.
# Build the program first: ./build. Ends with 1 where something is wrong.
set -eu

count=${1:-200}
top=$(cd "$(dirname "$0")/.." && pwd)
work=$(mktemp -d)
daemons=
processors=$(nproc)
# The daemons that the script began, and no others.
trap 'for one in $daemons; do kill "$one" 2>/dev/null || true; done; wait; rm -rf "$work"' EXIT
trap 'exit 130' INT TERM HUP

# stop LINE: ends with this line, after the end of what Snakemake said.
stop() {
    [ ! -e "$work/said" ] || tail -n 15 "$work/said"
    echo "batch: $*"
    exit 1
}

# batch STATUS WORD ..: makes the textures of ./textures.txt by Snakemake, which ends so.
batch() {
    wanted=$1
    shift
    status=0
    snakemake -s "$top/tools/batch/Snakefile" --quiet "$@" >"$work/said" 2>&1 || status=$?
    [ "$status" = "$wanted" ] || stop "Snakemake ends with $status, and not $wanted"
}

# are_made NUMBER: whether so many results are there, and each of them is verified.
are_made() {
    [ "$(find results -maxdepth 1 -name '*.png' -type f | wc -l)" = "$1" ] &&
        [ "$(find results/verified -type f | wc -l)" = "$1" ]
}

# made NUMBER: so many have to be.
made() {
    are_made "$1" || stop "not $1 results that are verified"
}

# when_made: the time at which each result was made.
when_made() {
    find results -maxdepth 1 -name '*.png' -type f -printf '%p %T@\n' | sort
}

# lists NAME LINE: the line of a result that wasn't made is listed at the end.
lists() {
    grep -q "^not made: $1: .*$2" "$work/said" || stop "the line of $1 isn't listed"
}

# wait_for COMMAND ..: waits until the command ends well.
wait_for() {
    for _ in $(seq 300); do
        if "$@" >/dev/null 2>&1; then return; fi
        sleep 0.2
    done
    stop "in vain: $*"
}

# timed COMMAND ..: runs it; seconds and processor seconds are then in $work/figures.
timed() {
    /usr/bin/time -o "$work/figures" -f '%e %U %S' "$@" >"$work/said" 2>&1
}

try_many() {
    seeds=$((count / 2 - 1))
    printf '# A table\n*.ppm grow 160x120 seed=0..%s\n' "$seeds" >textures.txt
    busy=$(cut -d ' ' -f 1 /proc/loadavg)
    # shellcheck disable=SC2016  # the inner shell expands these
    timed sh -ec 'for seed in 0 1 2 3 4; do
        "$1" grow bricks.ppm one.png 160x120 seed=$seed --replace
        "$1" verify one.png.weave
    done' sh "$top/tools/texture"
    read -r one own system <"$work/figures"
    timed snakemake -s "$top/tools/batch/Snakefile" --quiet --cores all --keep-going ||
        stop "Snakemake fails"
    read -r all whole more <"$work/figures"
    made $((2 * (seeds + 1)))
    awk -v count="$count" -v processors="$processors" -v busy="$busy" -v one="$one" -v all="$all" \
        -v own="$own" -v system="$system" -v whole="$whole" -v more="$more" 'BEGIN {
            linear = 100 * count * one / 5 / processors / all
            share = 100 * count * (own + system) / 5 / (whole + more)
            printf "%d textures: %d s on %d processors, %d%% of linear; ", count, all, processors, linear
            printf "%d%% of the processor time is that of texture\n", share
            if (busy >= 0.5) printf "(the machine had other work, a load of %s, so neither is judged)\n", busy
            exit busy < 0.5 && linear < 90
        }' || stop "less than 90% of linear"
}

try_again() {
    when_made >"$work/before"
    batch 0 --cores all --keep-going
    when_made | cmp - "$work/before" || stop "a second call makes results again"
    touch results/logs
    rm results/bricks-grow-160x120-seed1.png
    batch 0 --cores all --keep-going
    [ "$(when_made | diff - "$work/before" | grep -c '^<')" = 1 ] || stop "more than one is made again"
    echo "a second call does nothing, and a third makes what was removed"
}

try_failures() {
    rm -rf results
    {
        echo 'bricks.ppm grow 160x120 seed=1..3'
        echo 'bricks.ppm grow 90000x90000'
        echo 'bricks.ppm grow 160x120 colour=3'
    } >textures.txt
    batch 1 --cores all --keep-going
    made 3
    lists bricks-grow-90000x90000.png bounds
    lists bricks-grow-160x120-colour3.png 'colour=3'
    echo "rows that fail are listed with their line, and the others are made"
}

# run_of PROGRAM: the number of a process that runs this program.
run_of() {
    for process in /proc/[0-9]*; do
        if [ "$(readlink "$process/exe")" = "$1" ]; then
            echo "${process#/proc/}"
            return
        fi
    done
    return 1
}

try_kill() {
    rm -rf results
    cp "$top/weave" "$work/killed"
    echo 'bricks.ppm grow 160x120 seed=1..3' >textures.txt
    echo 'bricks.ppm grow 1000x1000 rounds=1000' >>textures.txt
    snakemake -s "$top/tools/batch/Snakefile" --quiet --cores 2 --keep-going \
        --config weave="$work/killed" >"$work/said" 2>&1 &
    batch=$!
    wait_for are_made 3
    wait_for run_of "$work/killed"
    kill -KILL "$(run_of "$work/killed")"
    status=0
    wait "$batch" || status=$?
    [ "$status" = 1 ] || stop "after a killed job Snakemake ends with $status"
    made 3
    lists bricks-grow-1000x1000-rounds1000.png 'was ended'
    sed -i '$d' textures.txt
    batch 0 --cores all --keep-going
    echo "a killed job leaves no result and its line, and the others are made"
}

try_program() {
    cp "$top/weave" ./other
    echo >>other
    when_made >"$work/before"
    batch 0 --cores all --keep-going --config weave=other
    [ "$(when_made | diff - "$work/before" | grep -c '^<')" = 3 ] || stop "another program makes nothing"
    echo "by another program all are made again"
}

# refuses LINE ROW ..: a table of these rows is refused, and its line has this.
refuses() {
    line=$1
    shift
    printf '%s\n' "$@" >textures.txt
    batch 1 --cores all
    grep -q "textures.txt, line [0-9]*: .*$line" "$work/said" || stop "no line of: $*"
}

try_tables() {
    refuses 'a row has a sample' 'bricks.ppm'
    refuses 'a row has a sample' 'bricks.ppm paint 3x3'
    refuses 'no file is called' '# Two' 'none*.ppm grow 3x3'
    refuses 'asked for twice' 'bricks.ppm grow 3x3 seed=1' 'bricks.ppm grow 3x3 seed=0..1'
    echo "a wrong row is named by its number"
}

# both_idle: both nodes of Slurm are there.
both_idle() {
    [ "$(sinfo --noheader --states=idle --format=%D)" = 2 ]
}

# start_slurm: a Slurm of its own, whose two nodes are this machine.
start_slurm() {
    mkdir "$work/slurm"
    chmod 755 "$work" "$work/slurm"
    head -c 128 /dev/urandom >"$work/slurm/key"
    chmod 400 "$work/slurm/key"
    munged --foreground --force --key-file="$work/slurm/key" --socket="$work/slurm/munge" \
        --pid-file="$work/slurm/munge.pid" --log-file="$work/slurm/munge.log" \
        --seed-file="$work/slurm/seed" >"$work/slurm/munge.said" 2>&1 &
    daemons="$daemons $!"
    cat >"$work/slurm/slurm.conf" <<END
ClusterName=batch
SlurmctldHost=$(hostname)(127.0.0.1)
SlurmctldPort=17000
SlurmUser=root
AuthType=auth/munge
AuthInfo=socket=$work/slurm/munge
CredType=cred/munge
StateSaveLocation=$work/slurm/state
SlurmdSpoolDir=$work/slurm/spool.%n
SlurmctldPidFile=$work/slurm/control.pid
SlurmdPidFile=$work/slurm/node.%n.pid
ProctrackType=proctrack/linuxproc
TaskPlugin=task/none
SelectType=select/cons_tres
SelectTypeParameters=CR_Core
MpiDefault=none
ReturnToService=2
NodeName=node1 NodeHostname=$(hostname) NodeAddr=127.0.0.1 Port=17001 CPUs=2 RealMemory=4000
NodeName=node2 NodeHostname=$(hostname) NodeAddr=127.0.0.1 Port=17002 CPUs=2 RealMemory=4000
PartitionName=all Nodes=node1,node2 Default=YES State=UP
END
    mkdir "$work/slurm/state"
    export SLURM_CONF="$work/slurm/slurm.conf"
    wait_for test -S "$work/slurm/munge"
    slurmctld -D -f "$SLURM_CONF" >"$work/slurm/control.said" 2>&1 &
    daemons="$daemons $!"
    for node in node1 node2; do
        slurmd -D -N "$node" -f "$SLURM_CONF" >"$work/slurm/$node.said" 2>&1 &
        daemons="$daemons $!"
    done
    wait_for both_idle
}

try_slurm() {
    start_slurm
    rm -rf results
    {
        echo 'bricks.ppm grow 160x120 seed=1..8'
        echo 'bricks.ppm grow 90000x90000'
    } >textures.txt
    batch 1 --profile "$top/tools/batch/slurm"
    made 8
    lists bricks-grow-90000x90000.png bounds
    sed -i '$d' textures.txt
    when_made >"$work/before"
    batch 0 --profile "$top/tools/batch/slurm"
    when_made | cmp - "$work/before" || stop "a second call on Slurm makes results again"
    echo 'bricks.ppm grow 1000x1000 rounds=1000' >>textures.txt
    snakemake -s "$top/tools/batch/Snakefile" --quiet --profile "$top/tools/batch/slurm" \
        >"$work/said" 2>&1 &
    batch=$!
    wait_for sh -c 'squeue --noheader --states=running | grep -q .'
    sleep 3
    scancel --user root
    status=0
    wait "$batch" || status=$?
    [ "$status" = 1 ] || stop "after a cancelled job Snakemake ends with $status"
    made 8
    echo "Slurm: 8 results on two nodes, one failing row, a call with nothing to do, a cancelled job"
}

[ -x "$top/weave" ] || { echo "no $top/weave: build it first"; exit 2; }
mkdir "$work/room"
cd "$work/room"
for name in bricks gravel; do "$top/examples/samples.py" $name $name.ppm; done
try_many
try_again
try_failures
try_kill
try_program
try_tables
try_slurm
