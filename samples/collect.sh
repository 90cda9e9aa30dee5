#!/usr/bin/env bash
# Runs the collector against a peer that Python's http.server makes, with files of its own, and compares what the peer was asked for, what
# was written and the exit code. Then a run over 60 files is killed at random points and begun again, until all are held, each once.
# Usage: samples/collect.sh [PROGRAM]. Ends with 0 where all is as it should be, else with 1.
set -u
here=$(cd "$(dirname "$0")" && pwd)
pmd=$(realpath "${1:-$here/../crates/pmd/out/pmd}")
if [ ! -x "$pmd" ]; then
  echo "no program at $pmd: run 'rt ci', or (cd crates/pmd && rt run -- tally < stdin)"
  exit 0
fi
failed=0
folder=$(mktemp -d)
peer=
trap '[ -n "$peer" ] && kill "$peer"; rm -rf "$folder"' EXIT
cd "$folder" || exit 1

# same WHAT IS WANTED
same() {
  if [ "$2" = "$3" ]; then
    echo "ok      $1"
  else
    echo "WRONG   $1: '$2' where '$3' should be"
    failed=1
  fi
}

cat > peer.py <<'PEER'
import http.server, json, pathlib, sys

def name(job):
    return f"A20231114.2200+0000-2215+0000_-{job}_ME1"

def report(job):
    values = {"measObjInstId": "ManagedElement=ME1,GNBCUCPFunction=1,NRCellCU=7", "measResults": [5], "suspectFlag": False}
    info = {"measTypes": ["RRC.ConnEstabAtt.mo-Data"], "measValues": [values], "objectClass": "NRCellCU"}
    part = {"beginTime": 1699999200, "endTime": 1700000100, "granularityPeriod": 900, "measInfo": [info]}
    header = {"beginTime": 1699999200, "fileFormatVersion": "PM1", "jobId": job, "senderName": "ManagedElement=ME1"}
    tree = {"fileFooter": {"endTime": 1700000100}, "fileHeader": header, "measData": [part]}
    return json.dumps(tree, separators=(",", ":"))

def entry(job):
    return {"fileDataType": "Performance", "fileExpirationTime": 1700086500, "fileFormat": "JSON",
            "fileLocation": "/files/" + name(job), "fileReadyTime": 1700000100, "fileSize": len(report(job))}

def listing(jobs):
    return json.dumps({"fileInfoList": [entry(job) for job in jobs]}, separators=(",", ":"))

def notice(job):
    tree = {"eventTime": 1700000100, "fileInfoList": [entry(job)], "notificationId": 0,
            "notificationType": "notifyFileReady", "objectInstance": "ManagedElement=ME1"}
    return json.dumps(tree, separators=(",", ":"))

class Peer(http.server.BaseHTTPRequestHandler):
    def do_GET(self):
        with open("asked", "a") as asked:
            asked.write(self.path + "\n")
        path = pathlib.Path("served" + self.path + (".listing" if self.path == "/files" else ""))
        if not path.is_file():
            self.send_error(404)
            return
        body = path.read_bytes()
        self.send_response(200)
        self.send_header("Content-Length", str(len(body)))
        self.end_headers()
        self.wfile.write(body)

    def log_message(self, *words):
        pass

if sys.argv[1] == "serve":
    server = http.server.HTTPServer(("127.0.0.1", 0), Peer)
    pathlib.Path("port").write_text(str(server.server_address[1]))
    server.serve_forever()
elif sys.argv[1] == "notice":
    print(notice(sys.argv[2]))
else:
    jobs = sys.argv[2:]
    pathlib.Path("served/files").mkdir(parents=True, exist_ok=True)
    pathlib.Path("served/files.listing").write_text(listing(jobs))
    for job in jobs:
        pathlib.Path("served/files/" + name(job)).write_text(report(job))
PEER

python3 peer.py files job1 job2
python3 peer.py serve &
peer=$!
for _ in $(seq 100); do [ -s port ] && break; sleep 0.1; done
port=$(cat port)
one=A20231114.2200+0000-2215+0000_-job1_ME1
two=A20231114.2200+0000-2215+0000_-job2_ME1
lines="$one 435
$two 435"

# collect INPUT: runs the collector, and empties what the peer was asked for before
collect() {
  : > asked
  printf '%s' "$1" | "$pmd" collect --port "$port" > out 2> err
  code=$?
}

notice=$(python3 peer.py notice job2)
collect "$notice
$notice
"
same "a told file, the listing, and what is missing of it" "$(cat asked)" "$(printf '/files/%s\n/files\n/files/%s' "$two" "$one")"
same "the lines" "$(cat out)" "$lines"
same "the exit code" "$code $(cat err)" "0 "
same "the mode of the store" "$(stat -c %a pmd-first.journal)" 600
collect ""
same "a run without input asks for the listing alone" "$(cat asked)" "/files"
same "the same lines" "$(cat out)" "$lines"

collect "{}
"
same "a line that is no notice" "$code $(cat err) $(cat asked)" "2 pmd: status 2 BadInput at 1 C1 "
printf '[]' > served/files.listing
collect ""
same "a listing that is none" "$code $(cat err)" "10 pmd: status 10 BadPeer at 1 C2"
rm served/files.listing
collect ""
same "a peer without a listing" "$code $(cat err)" "10 pmd: status 10 BadPeer at 1 X1"
python3 peer.py files job1 job2 job3
cp "served/files/$one" "served/files/A20231114.2200+0000-2215+0000_-job3_ME1"
collect ""
same "a report of another name" "$code $(cat err)" "10 pmd: status 10 BadPeer at 2 C3"
rm "served/files/A20231114.2200+0000-2215+0000_-job3_ME1"
collect "$(python3 peer.py notice job4)
"
same "a told file that is gone, and a listed one" "$code $(cat err) $(tr '\n' ' ' < asked)" \
  "10 pmd: status 10 BadPeer at 3 X1 /files/A20231114.2200+0000-2215+0000_-job4_ME1 /files /files/A20231114.2200+0000-2215+0000_-job3_ME1 "
"$pmd" collect --port 0 > out 2> err < /dev/null; code=$?
same "port 0" "$code $(cat err)" "1 pmd: status 1 Usage"

jobs=$(seq -f 'job%g' 1 60)
# shellcheck disable=SC2086
python3 peer.py files $jobs
rm -f pmd-first.journal
killed=0
for _ in $(seq 200); do
  "$pmd" collect --port "$port" < /dev/null > out 2> err &
  run=$!
  sleep "0.0$((RANDOM % 90 + 10))"
  if kill -9 "$run" 2> /dev/null; then killed=$((killed + 1)); fi
  wait "$run" 2> /dev/null
  [ "$(wc -l < out)" = 60 ] && break
done
collect ""
same "after $killed runs that were killed, each file once" "$code $(sort -u out | wc -l) $(wc -l < out)" "0 60 60"

kill "$peer"; wait "$peer" 2> /dev/null; peer=
collect ""
same "a port on which nobody listens" "$code $(head -1 err)" "9 pmd: status 9 LinkFault"
exit $failed
