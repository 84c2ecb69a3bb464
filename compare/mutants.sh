#!/bin/sh
# Shows that the comparison notices planners that are wrong.
#
# Each mutant is the stand-in library with one small mistake, put in by one edit of the fast planner's text.
# The comparison is built against it and run; it has to report a difference. A few edits leave the standstill
# of the house pile, and so every answer, as it is; of these it must not report one. At the end the number of
# mutants that did not come out as they should is told, and the exit status is 1 if there are any.
#
# usage: ./mutants.sh [CASES]
set -eu
cd "$(dirname "$0")"
cases=${1:-20000}
scratch=$(mktemp -d)
trap 'rm -rf "$scratch"' EXIT
failed=0

fail() {
    echo "FAILED: $1"
    failed=$((failed + 1))
}

try_mutant() { # wanted status, what is wrong, file, edit for sed
    rm -rf "$scratch/copy"
    mkdir -p "$scratch/copy/src" "$scratch/copy/standin"
    cp -r src/fast "$scratch/copy/src/"
    cp -r standin/Cargo.toml standin/src "$scratch/copy/standin/"
    file="$scratch/copy/src/fast/$3"
    sed -i "$4" "$file"
    if cmp -s "src/fast/$3" "$file"; then
        fail "the edit changes nothing: $2"
        return
    fi
    (cd "$scratch/copy/standin" && RUSTFLAGS=-Awarnings cargo build --release -j1 --quiet --target-dir "$scratch/library")
    RIUVELDE_LIB="$scratch/library/release" cargo build --release -j1 --quiet --target-dir "$scratch/program"
    status=0
    "$scratch/program/release/compare" compare --cases "$cases" >"$scratch/report" || status=$?
    if [ "$status" -eq "$1" ]; then
        echo "$(sed -n 's/differences: //p' "$scratch/report") differences: $2"
    else
        fail "status $status: $2"
    fi
}

mutant() {
    try_mutant 1 "$@"
}

harmless() {
    try_mutant 0 "$@"
}

# The sheet
mutant "station 8 is taken" sheet.rs 's/station >= STATIONS as u32/station > STATIONS as u32/'
mutant "duration 2,000 is refused" sheet.rs 's/duration > LONGEST/duration >= LONGEST/'
mutant "a due time of 40,000 is refused" sheet.rs 's/due > LAST_TIME/due >= LAST_TIME/'
mutant "a job that just fits its window is refused" sheet.rs 's/release + duration > due/release + duration >= due/'
mutant "a wait of 2,000 is refused" sheet.rs 's/wait > LONGEST/wait >= LONGEST/'
mutant "only 95 links are held" sheet.rs 's/self.link_count == LINKS/self.link_count == LINKS - 1/'
mutant "only 47 jobs are held" sheet.rs 's/self.job_count == JOBS/self.job_count == JOBS - 1/'
mutant "a link to itself is told before a job that is not there" sheet.rs '/from >= count || to >= count/s/to >= count/to > count/'

# The slip
mutant "slips of 4,097 bytes are read" slip.rs 's/BYTES_AT_MOST: usize = 4_096/BYTES_AT_MOST: usize = 4_097/'
mutant "bytes left over are overlooked" slip.rs 's/!reader.ended || !rest.is_empty()/!reader.ended/'
mutant "a J line may come after an L line" slip.rs "s/b'J' if self.link_place.is_none()/b'J'/"
mutant "leading zeros are taken" slip.rs "s/digits\[0\] == b'0';/false;/"
mutant "six digits are taken" slip.rs 's/take(6)/take(7)/; s/length > 5/length > 6/'
mutant "surplus fields are taken" slip.rs 's/if fields.is_empty()/if true/'
mutant "the trailer's place is not looked at" slip.rs 's/place as usize != true_place/false/'
mutant "the trailer's place is always its own" slip.rs 's/self.link_place.unwrap_or(self.line_place)/self.line_place/'
mutant "lines after the trailer are read" slip.rs 's/if self.ended {/if false {/'
mutant "a missing trailer is told one line too soon" slip.rs 's/number: 21, line,/number: 21, line: line - 1,/'

# The call for C
mutant "a buffer of one byte too few is taken" mod.rs 's/buffer.len() < wanted/buffer.len() + 1 < wanted/; s/buffer\[..wanted\]/buffer/'
mutant "looks are tested before the slip" mod.rs 's/let sheet = match slip::read(slip) {/if looks == 0 { return (11, 0) } let sheet = match slip::read(slip) {/'
mutant "1,000,001 looks are granted" mod.rs 's/LOOKS_AT_MOST: u32 = 1_000_000/LOOKS_AT_MOST: u32 = 1_000_001/'
mutant "starts have their high byte first" mod.rs 's/to_le_bytes/to_be_bytes/'
mutant "the buffer is cleared first" mod.rs 's/let mut search = Search::close/buffer.fill(0); let mut search = Search::close/'

# The rules
mutant "Pairs takes not less for greater" station.rs 's/self.lst(self.by_lst(taken)) < self.ect(i)/self.lst(self.by_lst(taken)) <= self.ect(i)/'
mutant "Pairs lets a job go behind itself" station.rs 's/if greatest_job == i { second }/if greatest_job == n { second }/'
mutant "Edges takes not less for greater" station.rs 's/(run + p > d)/(run + p >= d)/; s/soonest_end + bench.longest\[t\] > d/soonest_end + bench.longest[t] >= d/'
mutant "a full set is dead already" station.rs 's/if soonest_end > d {/if soonest_end >= d {/'
mutant "Edges overlooks the longest job" station.rs 's/so_far = so_far.max(self.p\[self.by_lct(place)\]);/so_far = so_far.max(self.p[self.by_lct(place)] - 1);/'
mutant "Not-first takes not less for greater" station.rs 's/if self.ect(i) <= tightest/if self.ect(i) < tightest/'
mutant "Not-first counts a member twice" station.rs 's/at > last || tightest < self.est(i)/at >= last || tightest < self.est(i)/'
mutant "Not-first overlooks members" station.rs 's/let behind = u < t || {/let behind = u < t || u > 99 \&\& {/'
mutant "Edges is left out" search.rs 's/let edges = self.cut_all(StationRule::Edges, windows, workshop)?;/let edges = false;/'
mutant "Not-first is left out" search.rs 's/let not_first = self.cut_all(StationRule::NotFirst, windows, workshop)?;/let not_first = false;/'
mutant "the pile is not repeated" search.rs 's/            if !changed {/            let _ = changed; {/'
mutant "a link's wait is left out backwards" search.rs 's/let back = self.p\[to as usize\] + link.wait;/let back = self.p[to as usize];/'
mutant "a link's duration is left out" search.rs 's/let ahead = self.p\[from as usize\] + link.wait;/let ahead = link.wait;/'

# The search
mutant "the middle is rounded up" search.rs 's#self.layout.spread(&windows, place) / 2;#(self.layout.spread(\&windows, place) - 1) / 2;#'
mutant "of equal windows the last job is taken" search.rs 's/u32::from(self.job\[place\]);/u32::from(63 - self.job[place]);/'
mutant "of equal windows the lower station goes first" search.rs 's/u32::from(self.job\[place\]);/place as u32;/'
mutant "the widest window is halved" search.rs 's/if key < least {/if key >> 31 == 0 \&\& (least == u32::MAX || key > least) {/'
mutant "impossible as soon as a first part is dead" search.rs 's/while self.path.pop_if(|decision| decision.second).is_some() {}/self.path.clear();/'
mutant "only one second part is dropped" search.rs 's/while self.path.pop_if(|decision| decision.second).is_some() {}/self.path.pop_if(|decision| decision.second);/'
mutant "the second part begins at the middle" search.rs 's/windows.est\[self.place\] = self.middle + 1;/windows.est[self.place] = self.middle;/'
mutant "a look is counted twice when it is dead" search.rs 's/self.look();/if self.path.len() > 2 { made += 1; } self.look();/'

# What cannot be seen from outside. Not-first with a set of one job says all that Pairs says. At a standstill
# of Not-first no set is without room: of such a set every job would start after another of it. And the pile
# is repeated until nothing changes, whether or not its inner standstill is.
harmless "Pairs is left out" search.rs 's/let pairs = self.cut_all(StationRule::Pairs, windows, workshop)?;/let pairs = false;/'
harmless "Edges does not see sets without room" station.rs 's/if soonest_end > d {/if false {/'
harmless "the inner standstill ends after one round" search.rs 's/if !(pairs || edges || not_first) {/{ changed |= pairs | edges | not_first;/'

echo "mutants that did not come out as they should: $failed"
[ "$failed" -eq 0 ]
