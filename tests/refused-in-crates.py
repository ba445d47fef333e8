#!/usr/bin/env python3
"""Tests of the crates, each run with its first, second and each further allocation refused, until a run meets no refusal.

    python3 tests/refused-in-crates.py

Each says what its calls answer then, what stands as before, and what the next call gives. `rt ci` and `rt test` leave the tests
of a crate as a program, which runs one of them by its name. The few lines of C that refuse an allocation are those of
refused-allocations.py. A great number of groups is also run within a limit of memory.
"""
import os
import re
import resource
import subprocess
import tempfile

from concurrent.futures import ThreadPoolExecutor

from support.program import HANGS, ROOT, Tests, shared_library

# The calls that answer where memory runs out, and the test of a crate that has them refused. Pipelines, rows of keys and streams
# are refused through the calls that use them, `offer_with` through `offer`, and `run_with` and those of the program by
# refused-allocations.py.
CALLS = {
    "TicketLock::new": ("merge", "lock::a_lock_that_is_refused_is_out_of_memory"),
    "Enumerator::ask and close": ("merge", "enumerators::a_refused_growth_changes_nothing"),
    "Lambda::expand of Formula": ("merge", "formulas::expands_or_says_that_memory_ran_out"),
    "Chunked::new and partitions, Partition::take, try_take and stop": ("merge", "refusals::a_refused_allocation_changes_nothing"),
    "Partition::try_take of a first chunk": ("merge", "refusals::a_refused_first_chunk_uses_up_a_ticket"),
    "Partition::stop before any take": ("merge", "refusals::a_refused_stop_closes_nothing"),
    "Chunked::with_first_ticket and TicketLock::with_first_ticket": ("merge", "refusals::a_refused_start_at_a_ticket_is_memory"),
    "RangeParts::partitions and PairParts::partitions": ("merge", "lists::a_refused_growth_is_memory"),
    "the builder calls of Query": ("merge", "refused_room::a_builder_call_that_is_refused_hands_the_query_back"),
    "sequential": ("merge", "refused_room::an_answer_that_is_refused_is_given_the_next_time"),
    "sequential with a Skip and a Take": ("merge", "answers::answers_or_says_that_memory_ran_out"),
    "chunk_result and fragment": ("merge", "refused_room::a_result_that_is_refused_is_given_the_next_time"),
    "CutWord::new": ("merge", "cut_words::a_cut_that_is_refused_is_made_the_next_time"),
    "Merger::new and offer, NotBuffered": ("merge", "no_room_to_merge::no_room_ends_a_merger_that_is_not_buffered"),
    "Merger::new and offer, AutoBuffered": ("merge", "no_room_to_merge::no_room_ends_a_merger_of_batches"),
    "Merger::new and offer, FullyBuffered": ("merge", "no_room_to_merge::no_room_ends_a_merger_that_is_fully_buffered"),
    "deliver_sequentially": ("merge", "no_room_to_merge::no_room_ends_a_delivery_by_one_thread"),
    "deliver_in_blocks": ("merge", "no_room_to_merge::no_room_ends_a_delivery_in_blocks"),
    "build, to_vec and first": ("library", "refused_room::a_call_that_is_refused_is_answered_the_next_time"),
    "lines_source": ("library", "refused_room::lines_that_are_refused_are_given_the_next_time"),
    "for_each": ("library", "refused_room::calls_that_are_refused_are_made_the_next_time"),
    "sequentially::for_each": ("library", "refused_room::calls_on_one_thread_that_are_refused_are_made_the_next_time"),
    "contains": ("library", "refused_room::a_line_that_was_refused_is_found_the_next_time"),
    "typed queries": ("query", "refused_room::queries_that_are_refused_are_answered_the_next_time"),
    "steps by position": ("query", "refused_room::steps_by_position_that_are_refused_are_answered_the_next_time"),
    "what steps by position leave, delivered": ("query", "refused_room::a_delivery_that_is_refused_delivers_nothing_and_is_answered_the_next_time"),
    "run and aggregate by one worker": ("run", "refused_room::one_worker_may_be_refused_room"),
    "run and aggregate by two workers": ("run", "refused_room::two_workers_may_be_refused_room"),
    "run and aggregate by eight workers": ("run", "refused_room::eight_workers_may_be_refused_room"),
    "aggregate with GroupBy by one worker": ("groups", "refused_room::groups_by_one_worker_may_be_refused_room"),
    "aggregate with GroupBy by two workers": ("groups", "refused_room::groups_by_two_workers_may_be_refused_room"),
    "aggregate with FoldEach by one worker": ("groups", "refused_room::a_fold_of_what_is_made_by_one_worker_may_be_refused_room"),
    "aggregate with FoldEach by two workers": ("groups", "refused_room::a_fold_of_what_is_made_by_two_workers_may_be_refused_room"),
    "run_mapped by one worker": ("groups", "refused_room::a_mapped_run_by_one_worker_may_be_refused_room"),
    "run_mapped by two workers": ("groups", "refused_room::a_mapped_run_by_two_workers_may_be_refused_room"),
    "to_vec_mapped by one worker": ("groups", "refused_room::a_mapped_list_by_one_worker_may_be_refused_room"),
    "to_vec_mapped by two workers": ("groups", "refused_room::a_mapped_list_by_two_workers_may_be_refused_room"),
    "order_by by one worker": ("groups", "refused_room::an_order_by_one_worker_may_be_refused_room"),
    "order_by by two workers": ("groups", "refused_room::an_order_by_two_workers_may_be_refused_room"),
}


# What a program may take that groups a million numbers, which wants more, and what its test says then.
FEW_BYTES = 48_000_000
MANY_GROUPS = "hostile::a_million_groups"
OUT_OF_MEMORY = b"out of memory, and ten groups after that"

SAYS_SO = r"each\s+allocation\s+(failing|refused)\s+in\s+turn"


def words_of(comment):
    return re.sub(r"^\s*//[/!]?", "", comment, flags=re.M)


def tests_that_say_so():
    """The tests that say of themselves, or whose file says of them, that they are run so."""
    for crate in {it for it, _ in CALLS.values()}:
        top = os.path.join(ROOT, "crates", f"plinq_{crate}_tests", "src")
        for at, _, names in os.walk(top):
            for name in names:
                with open(os.path.join(at, name), encoding="utf-8") as file:
                    text = file.read()
                module = os.path.relpath(os.path.join(at, name), top).removesuffix(".rt").replace(os.sep, "::")
                heads = words_of("".join(re.findall(r"^//!.*\n", text, re.M)))
                for comment, test in re.findall(r"((?:^//.*\n)*)^#\[test\]\nfn (\w+)", text, re.M):
                    if re.search(SAYS_SO, words_of(comment)) or re.search(SAYS_SO, heads):
                        yield crate, f"{module}::{test}"


def refusing(program, name, shim, at):
    """Runs a test with allocation number `at` refused. Answers how it ended, what it said, and whether one was refused."""
    reading, writing = os.pipe()
    env = os.environ | {"LD_PRELOAD": shim, "REFUSE_AT": str(at), "REFUSED_TO": str(writing)}
    ran = subprocess.run([program, name], env=env, pass_fds=(writing,), stdin=subprocess.DEVNULL, stdout=subprocess.PIPE, stderr=subprocess.STDOUT, timeout=HANGS)
    os.close(writing)
    met = os.read(reading, 1)
    os.close(reading)
    return ran.returncode, ran.stdout, bool(met)


def each_refused(pool, program, name, shim):
    """The same for each allocation in turn, as many at once as there are cores, up to one that isn't made any more."""
    first = 1
    while True:
        for at, ended in enumerate(pool.map(lambda at: refusing(program, name, shim, at), range(first, first + 32)), first):
            yield at, *ended
            if not ended[-1]:
                return
        first += 32


def many_groups(tests):
    """Within a limit a million groups are out of memory, after which the same query groups ten numbers; without one there is room."""
    program = os.path.join(ROOT, "crates", "plinq_groups_tests", "out", "plinq_groups_tests_tests")
    if not os.path.exists(program):
        tests.check("a great number of groups", False, f"{program} isn't there")
        return
    for limit, status, words in ((FEW_BYTES, None, OUT_OF_MEMORY), (resource.RLIM_INFINITY, 0, b"ok")):
        ran = subprocess.run(
            [program, MANY_GROUPS],
            stdin=subprocess.DEVNULL,
            stdout=subprocess.PIPE,
            stderr=subprocess.STDOUT,
            timeout=HANGS,
            preexec_fn=lambda: resource.setrlimit(resource.RLIMIT_DATA, (limit, limit)),
        )
        is_so = (ran.returncode == 0) == (status == 0) and words in ran.stdout
        tests.check(f"a great number of groups within {limit} bytes", is_so, (ran.returncode, ran.stdout[-300:]))


def main():
    tests = Tests()
    many_groups(tests)
    say_so = set(tests_that_say_so())
    missing = sorted(say_so - set(CALLS.values()))
    tests.check("each test that says that it is run so is run so", len(say_so) > 10 and not missing, missing or len(say_so))
    with tempfile.TemporaryDirectory() as folder, ThreadPoolExecutor(os.cpu_count()) as pool:
        shim = shared_library("refusing.c", folder)
        for calls, (tested, name) in CALLS.items():
            crate = f"plinq_{tested}_tests"
            program = os.path.join(ROOT, "crates", crate, "out", f"{crate}_tests")
            if not os.path.exists(program):
                tests.check(calls, False, f"{program} isn't there: `rt ci` makes it, or `rt test` in crates/{crate}")
                continue
            problems, at = [], 0
            for at, status, said, _ in each_refused(pool, program, name, shim):
                problems += [f"allocation {at}: status {status}, {said[-200:]!r}"] if status else []
            tests.check(f"{calls}: {name}", not problems, f"{len(problems)} of {at}; the first is {problems[:1]}")
            tests.check(f"{calls}: an allocation was refused", at > 1, "none")
    tests.end()


if __name__ == "__main__":
    main()
