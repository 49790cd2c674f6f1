#!/usr/bin/env bash
# Refuses each request for memory of a lost reply in turn: two events wait in a channel in memory, an Avro sink delivers them, and
# the first link fails after the request. In each run one request for memory is refused. Then the sink runs go on until the events
# are delivered: the sink's count of refusals has to be that of the lost replies, the last link to have taken just these events, and
# the channel to be empty. A link in memory whose own request is refused fails too, so two replies may be lost. A run whose request
# is one of the making of the parts says nothing. Needs the Rattle kit's `rt`; it proves nothing, and takes half a minute of a
# processor for each of some fifty requests. No part of the gate.
set -eu
cd "$(dirname "$0")/.."
. bench/program.sh
make_program refused "flume_host event_core avro_frame host_memory avro_binary channel_face txn_core memory_channel hop_attempt interceptors selectors regex_steps plug_in avro_hop sink_runner source_put avro_ends" "anyhow"
cp bench/programs/refused.rt.in "$program/src/main.rt"
cd "$program"
export LC_ALL=C

# Prints what a run said in which the request of this number was refused, or nothing.
run_one() {
  rt try --fail-alloc "$1" 2>&1 </dev/null | grep -E '^(lost|allocations:)' | sed "s/^/request $1: /" || true
}
export -f run_one

total=$(run_one 1000000 | sed -n 's/.*allocations: //p')
seq "$total" | xargs -P "$(nproc)" -I{} bash -c 'run_one {}' | grep ' lost' | sort -t' ' -k2,2n >said
bad=$(grep -cvE 'lost ([0-2]) refused [01] faults \1 whole true$' said || true)
cat said
echo "$(wc -l <said) of $total requests for memory were refused in turn after the making of the parts: $bad went wrong"
