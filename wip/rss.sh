#!/bin/bash
# the most that any check has had, and all together
max=0; all=0
while [ ! -e /work/rss.stop ]; do
  r=$(ps -eo rss,args --no-headers | awk '/rattle (check|build)/ && !/awk/ {s+=$1; if($1>m){m=$1; n=$0}} END{print int(s/1024), int(m/1024), n}' | cut -c1-140)
  set -- $r; [ "${1:-0}" -gt $all ] && all=$1 && echo "all $r" >> /work/rss.log; [ "${2:-0}" -gt $max ] && max=$2 && echo "max $r" >> /work/rss.log
  sleep 3
done
