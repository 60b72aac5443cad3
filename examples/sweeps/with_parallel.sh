#!/usr/bin/env bash
# with_parallel.sh HOSTS: runs each line of commands.txt by GNU parallel, over ssh, on the hosts that the file HOSTS
# names, one on each line: `lab1`, or `8/lab2` for eight commands at once. `:` is this machine, without ssh. The program
# `overlay` must be on the PATH of each host.
#
# What line 7 of 24 prints is then in rows/07.out. The status is the number of commands that failed, at most 101.
#
# --retries gives a command that failed, since its host is lost, to another host. --joblog keeps which commands have
# ended. By --resume-failed the same call goes on where it ended, and runs again what failed.
mkdir -p rows
parallel --sshloginfile "$1" --retries 3 --joblog jobs.log --resume-failed \
    --plus --results 'rows/{0#}.out' < commands.txt > /dev/null
