#!/usr/bin/env python3
"""Further rows than examples/README.md has: answers by both commands and with each number of workers, and what is refused.

    python3 tests/answers.py
"""
import json
from collections import Counter
from itertools import product

from support.batches import batches_in, in_batches
from support.model import cancelled_after, status_of
from support.program import Outcome, Tests, build, run

# A merge option or none, a source, the steps after `as_ordered`, the output and the status.
ANSWERS = [
    ("not", '"list":[3,1,4]', ',["select","add",1]', "4\n2\n5\nend\n", 0),
    ("not", '"list":[]', "", "end\n", 0),
    ("auto", '"list":[]', "", "end\n", 0),
    ("full", '"list":[]', "", "end\n", 0),
    ("default", '"list":[]', "", "end\n", 0),
    ("", '"text":"3 1 4"', ',["select","add",1]', "4 2 5\nend\n", 0),
    ("auto", '"range":[1,17]', "", "1 2 3 4 5 6 7 8 9 10 11 12 13 14 15 16\n17\nend\n", 0),
    ("auto", '"range":[1,16]', "", "1 2 3 4 5 6 7 8 9 10 11 12 13 14 15 16\nend\n", 0),
    ("not", '"list":[1,2],"refuse":7', "", "1\n2\nrefused 7\n", 3),
    ("auto", '"list":[1,2],"refuse":7', "", "1 2\nrefused 7\n", 3),
    ("full", '"list":[1,2],"refuse":7', "", "refused 7\n", 3),
    ("not", '"list":[1],"refuse":4294967295', "", "1\nrefused 4294967295\n", 3),
    ("not", '"list":[1,2],"refuse":7', ',["take",2]', "1\n2\nend\n", 0),
    ("", '"list":[],"refuse":7', ',["take",0]', "end\n", 0),
    ("", '"list":[],"refuse":7', ',["take",-1]', "end\n", 0),
    ("", '"list":[],"refuse":7', ',["filter","even"],["take",0]', "end\n", 0),
    ("not", '"list":[5,0,2]', ',["select","into",10]', "2\nfault division\n", 4),
    ("full", '"list":[5,0,2]', ',["select","into",10]', "fault division\n", 4),
    ("not", '"list":[5,0,2]', ',["select","into",10],["take",1]', "2\nend\n", 0),
    ("auto", '"list":[2,3]', ',["select_many","repeat",2],["take",3]', "2 2 3\nend\n", 0),
    ("not", '"list":[1,2,9,3,0]', ',["take_while","below",5],["select","into",6]', "6\n3\nend\n", 0),
    ("", '"list":[1,2],"refuse":7', ',["skip",5]', "refused 7\n", 3),
    ("auto", '"list":[1,2]', ',["skip",-1]', "1 2\nend\n", 0),
    ("auto", '"range":[1,10]', ',["filter","even"],["take",2]', "2 4\nend\n", 0),
    ("not", '"text":"7 x 9"', "", "7\nrefused 1\n", 3),
    ("not", '"text":"12345678901234567890"', "", "refused 2\n", 3),
    ("auto", '"text":"-9223372036854775808 007 -0"', "", "-9223372036854775808 7 0\nend\n", 0),
    ("", '"text":"+1"', "", "refused 1\n", 3),
    ("", '"text":"-"', "", "refused 1\n", 3),
    ("", '"text":" "', "", "end\n", 0),
    ("not", '"text":"9223372036854775807 9223372036854775808"', "", "9223372036854775807\nrefused 2\n", 3),
    ("", '"text":"-9223372036854775809"', "", "refused 2\n", 3),
    ("", '"text":"99999999999999999999x"', "", "refused 1\n", 3),
    ("", '"text":"00000000000000000000000001"', "", "1\nend\n", 0),
    ("", '"text":"--1"', "", "refused 1\n", 3),
    ("", '"text":"1-"', "", "refused 1\n", 3),
    ("", '"text":"1\\t2"', "", "refused 1\n", 3),
    ("", '"text":""', "", "end\n", 0),
    ("auto", '"text":"\\n\\n-5 \\n 6\\n"', "", "-5 6\nend\n", 0),
    ("", '"list":[9223372036854775807]', ',["select","add",1]', "fault overflow\n", 4),
    ("", '"list":[-1]', ',["select","into",-9223372036854775808]', "fault overflow\n", 4),
    ("", '"list":[-9223372036854775808]', ',["select","mod",-1]', "0\nend\n", 0),
    ("", '"list":[-7]', ',["select","mod",3]', "-1\nend\n", 0),
    ("not", '"list":[1,65537]', ',["select_many","up_to"]', "1\nfault toomany\n", 4),
    ("", '"repeat":[6,3]', ',["select","mul",-7]', "-42 -42 -42\nend\n", 0),
    ("auto", '"range":[-1,3]', "", "-1 0 1\nend\n", 0),
    ("auto", '"repeat":[5,2]', "", "5 5\nend\n", 0),
    ("not", '"list":[1,2],"refuse":4294967295', "", "1\n2\nrefused 4294967295\n", 3),
    ("", '"list":[],"refuse":0', "", "refused 0\n", 3),
    ("full", '"range":[8,20]', ',["skip",1]', "9 10 11 12 13 14 15 16 17 18 19 20 21 22 23 24 25 26 27\nend\n", 0),
    ("not", '"list":[1],"refuse":7', ',["take",2]', "1\nrefused 7\n", 3),
    ("", '"list":[4],"refuse":7', ',["filter","even"],["take",0]', "end\n", 0),
    # A test that faults ends the answer, and its element isn't kept.
    ("not", '"list":[5,0,2]', ',["filter","into",10]', "5\nfault division\n", 4),
    ("not", '"list":[5,0,2]', ',["take_while","into",10]', "5\nfault division\n", 4),
    # What stands after the last element of a Take still has its say on that element.
    ("auto", '"list":[1,2]', ',["take",1],["filter","even"]', "end\n", 0),
    ("not", '"list":[0,2]', ',["take",1],["select","into",10]', "fault division\n", 4),
    ("auto", '"list":[2,9]', ',["take",1],["select_many","up_to"],["skip",1]', "2\nend\n", 0),
    # In one expansion: the first two are passed over, the third goes on, the fourth faults.
    ("not", '"list":[1,4,9]', ',["skip",1],["select_many","up_to"],["skip",2],["select","add",-4],["select","into",10]', "-10\nfault division\n", 4),
    ("auto", '"list":[1,2,3,4],"refuse":7', ',["skip",1],["take_while","below",4],["take",3]', "2 3\nend\n", 0),
    ("auto", '"list":[5,6,0,7,8]', ',["skip",2],["select","add",1]', "1 8 9\nend\n", 0),
    ("auto", '"list":[5,6,0,7,8]', ',["skip",1],["select_many","repeat",2],["take",3]', "6 6 0\nend\n", 0),
    # The last that is taken still faults, and an earlier ending hides the fault after it.
    ("auto", '"list":[5,6,0,7,8]', ',["select","into",42],["take",2]', "8 7\nend\n", 0),
]

# The same of documents of version 2.
ANSWERS_OF_VERSION_2 = [
    ("auto", '"list":[1,2,9,3]', ',["skip_while","below",5]', "9 3\nend\n", 0),
    ("auto", '"list":[7,0]', ',["skip_while","into",6]', "7 0\nend\n", 0),
    ("auto", '"list":[1,0,9]', ',["skip_while","into",6]', "fault division\n", 4),
    ("auto", '"list":[1],"refuse":7', ',["skip_while","below",5]', "refused 7\n", 3),
    ("auto", '"concat":[{"list":[1,2]},{"range":[5,2]}]', "", "1 2 5 6\nend\n", 0),
    ("not", '"concat":[{"list":[1],"refuse":7},{"list":[2]}]', "", "1\nrefused 7\n", 3),
    ("", '"concat":[{"list":[]},{"text":"x"}]', "", "refused 1\n", 3),
    ("full", '"concat":[{"text":"1 2"},{"list":[5],"refuse":7}]', "", "refused 7\n", 3),
    ("not", '"concat":[{"range":[1,2]},{"list":[5],"refuse":7}]', ',["take",3]', "1\n2\n5\nend\n", 0),
    ("auto", '"concat":[{"range":[1,9]},{"repeat":[0,9]}]', "", "1 2 3 4 5 6 7 8 9 0 0 0 0 0 0 0\n0 0\nend\n", 0),
    ("", '"concat":[{"list":[]},{"list":[]}]', "", "end\n", 0),
    ("auto", '"list":[1,9,3]', ',["skip_while","below",5],["take",1]', "9\nend\n", 0),
    ("auto", '"list":[8,1,9,2]', ',["skip",1],["skip_while","below",5],["skip_while","above",5]', "2\nend\n", 0),
    ("auto", '"list":[5,6,0,7,8]', ',["skip_while","above",4],["take",2]', "0 7\nend\n", 0),
]

OF_EACH_LENGTH = [-(2**63), -10, -1, 0, 1, 9, 10, 99, 100, 999_999, 2**63 - 1]
EIGHTEEN = [3, 1, 4, 1, 5, 9, 2, 6, 5, 3, 5, 8, 9, 7, 9, 3, 2, -3]
# Answers that are the same however they are asked for: a version, a source, the steps after `as_ordered`, the items and the
# ending.
IN_ALL_WAYS = [
    (1, '"list":[3,1,4]', ',["select","add",1]', [4, 2, 5], "end"),
    (1, '"list":[]', "", [], "end"),
    (1, '"text":"3 1 4"', ',["select","add",1]', [4, 2, 5], "end"),
    (1, '"text":"7 x 9"', "", [7], "refused 1"),
    (1, '"text":" "', "", [], "end"),
    (1, '"repeat":[6,3]', ',["select","add",1]', [7, 7, 7], "end"),
    (1, '"list":[1,2],"refuse":7', "", [1, 2], "refused 7"),
    (1, '"list":[1,2],"refuse":7', ',["select","add",1]', [2, 3], "refused 7"),
    (1, '"range":[1,17]', "", [*range(1, 18)], "end"),
    (1, '"range":[1,16]', "", [*range(1, 17)], "end"),
    (1, '"range":[1,0]', "", [], "end"),
    # where its operators end it
    (1, '"list":[1,2],"refuse":7', ',["take",2]', [1, 2], "end"),
    (1, '"list":[2,3]', ',["select_many","repeat",2],["take",3]', [2, 2, 3], "end"),
    (1, '"list":[1,2,9,3,0]', ',["take_while","below",5],["select","into",6]', [6, 3], "end"),
    (1, '"range":[1,10]', ',["filter","even"],["take",2]', [2, 4], "end"),
    (1, '"list":[1,2]', ',["skip",-1]', [1, 2], "end"),
    (1, '"list":[1,2],"refuse":7', ',["skip",5]', [], "refused 7"),
    # where a skip_while ends
    (2, '"list":[1,2,9,3]', ',["skip_while","below",5]', [9, 3], "end"),
    (2, '"list":[7,0]', ',["skip_while","into",6]', [7, 0], "end"),
    (2, '"list":[1,0,9]', ',["skip_while","into",6]', [], "fault division"),
    (2, '"list":[1],"refuse":7', ',["skip_while","below",5]', [], "refused 7"),
    # where nothing is taken, and so no refusal met
    (1, '"list":[],"refuse":7', ',["take",0]', [], "end"),
    (1, '"list":[],"refuse":7', ',["take",-1]', [], "end"),
    (1, '"list":[],"refuse":7', ',["filter","even"],["take",0]', [], "end"),
    # with its first fault
    (1, '"list":[5,0,2]', ',["select","into",10]', [2], "fault division"),
    (1, '"list":[5,0,2]', ',["select","into",10],["take",1]', [2], "end"),
    (1, '"list":[9223372036854775807]', ',["select","add",1]', [], "fault overflow"),
    (1, '"list":[1,65537]', ',["select_many","up_to"]', [1], "fault toomany"),
    (2, '"concat":[{"list":[1,2],"refuse":8},{"list":[3]}]', "", [1, 2], "refused 8"),
    (2, '"concat":[{"list":[1,2]},{"list":[3],"refuse":8}]', ',["select","mul",2]', [2, 4, 6], "refused 8"),
    # numbers of each length, and batches before each ending
    (1, f'"list":{OF_EACH_LENGTH}', "", OF_EACH_LENGTH, "end"),
    (1, f'"list":{EIGHTEEN}', "", EIGHTEEN, "end"),
    (1, f'"list":{EIGHTEEN},"refuse":7', "", EIGHTEEN, "refused 7"),
    (1, f'"list":{[*EIGHTEEN, 2**63 - 1]}', ',["select","add",1]', [it + 1 for it in EIGHTEEN], "fault overflow"),
    (1, '"range":[1,1]', "", [1], "end"),
    (1, '"range":[1,2]', "", [1, 2], "end"),
    (1, '"range":[1,32]', "", [*range(1, 33)], "end"),
    (1, '"range":[1,33]', "", [*range(1, 34)], "end"),
]
# What is added to a document for chunks of one element, as they come, and which grow to four.
GROWTHS = ("", ',"growth":[1,1,1]', ',"growth":[1,1,4]')
OPTIONS = ("not", "auto", "full", "default")
RUNS = ("run --workers 1", "run --workers 2", "run --workers 64")

# Queries that don't keep the order: a merge option, a source, the steps, the items that may come, how many of them do (or
# any number of them), the last line and the status.
IN_ANY_ORDER = [
    ("auto", '"list":[1,2,3]', '["take",2]', [1, 2, 3], 2, "end", 0),
    ("auto", '"list":[1,2,4]', '["take",2]', [1, 2, 4], 2, "end", 0),
    ("auto", '"list":[3,1]', '["as_ordered"],["as_unordered"]', [3, 1], 2, "end", 0),
    ("auto", '"list":[3,1]', '["as_unordered"],["skip",1]', [3, 1], 1, "end", 0),
    ("not", '"list":[3,1,4]', "", [3, 1, 4], 3, "end", 0),
    ("full", '"range":[1,40]', '["filter","even"],["select","mul",3]', range(6, 121, 6), 20, "end", 0),
    ("auto", '"range":[0,500]', '["select_many","repeat",2]', [*range(500), *range(500)], 1000, "end", 0),
    ("auto", '"range":[1,1000]', '["take",20]', range(1, 1001), 20, "end", 0),
    ("not", '"list":[3,1,4],"refuse":7', '["select","add",1]', [4, 2, 5], 3, "refused 7", 3),
    ("not", '"list":[1,2],"refuse":7', "", [1, 2], 2, "refused 7", 3),
    ("full", '"list":[1,2],"refuse":7', "", [], 0, "refused 7", 3),
    ("auto", '"text":"7 8 x 9"', '["skip",1]', [7, 8], 1, "refused 1", 3),
    ("", '"list":[1,2],"refuse":7', '["take",0]', [], 0, "end", 0),
    ("not", '"list":[5,0,2]', '["select","into",10]', [2, 5], None, "fault division", 4),
    ("full", '"list":[5,0,2]', '["select","into",10]', [], 0, "fault division", 4),
    ("not", '"list":[1,65537]', '["select_many","up_to"]', [1], None, "fault toomany", 4),
]

# Aggregates, which are the same in whatever order the items come: a source, the steps, the aggregate, the output and the
# status.
AGGREGATES = [
    ('"list":[]', "", "sum", "0\nend\n", 0),
    ('"list":[]', "", "count", "0\nend\n", 0),
    ('"list":[]', "", "min", "none\nend\n", 0),
    ('"list":[]', '["as_ordered"]', "max", "none\nend\n", 0),
    ('"list":[-9223372036854775808,-9223372036854775808]', '["as_ordered"]', "sum", "-18446744073709551616\nend\n", 0),
    ('"repeat":[9223372036854775807,3]', "", "sum", "27670116110564327421\nend\n", 0),
    ('"range":[1,10]', '["as_ordered"],["filter","even"]', "count", "5\nend\n", 0),
    ('"list":[3,9,4]', "", "max", "9\nend\n", 0),
    ('"list":[3,-9,4]', '["as_ordered"]', "min", "-9\nend\n", 0),
    ('"list":[1,2],"refuse":7', '["as_ordered"]', "sum", "refused 7\n", 3),
    ('"list":[1,2],"refuse":7', "", "count", "refused 7\n", 3),
    ('"list":[1,2],"refuse":7', '["as_ordered"],["take",2]', "max", "2\nend\n", 0),
    ('"list":[5,0,2]', '["select","into",10]', "min", "fault division\n", 4),
    ('"list":[3,1,2]', "", "sum", "6\nend\n", 0),
    ('"range":[1,1000]', '["select_many","repeat",3]', "sum", "1501500\nend\n", 0),
    ('"range":[1,1000]', '["take",20]', "count", "20\nend\n", 0),
    ('"range":[1,1000]', '["as_ordered"],["filter","even"]', "count", "500\nend\n", 0),
    ('"list":[5,0,2]', '["as_ordered"],["select","into",10]', "sum", "fault division\n", 4),
    ('"list":[5,0,2]', '["as_ordered"],["select","into",10],["take",1]', "sum", "2\nend\n", 0),
    ('"list":[],"refuse":7', '["as_ordered"],["take",0]', "count", "0\nend\n", 0),
    ('"list":[],"refuse":7', '["take",0]', "sum", "0\nend\n", 0),
    ('"list":[],"refuse":7', '["as_ordered"],["take",0]', "max", "none\nend\n", 0),
    ('"range":[1,1000]', '["as_ordered"],["filter","even"],["take",3]', "sum", "12\nend\n", 0),
    ('"range":[1,1000]', '["as_ordered"],["filter","even"],["take",3]', "max", "6\nend\n", 0),
    ('"list":[9223372036854775807]', '["as_ordered"],["select","add",1]', "sum", "fault overflow\n", 4),
]

# Runs that may be cancelled: a merge option, after how many batches, a source, the steps after `as_ordered`, what stands
# after them in the document, the lines, and whether the run is cancelled.
ADDED = '"list":[3,1,4]', ',["select","add",1]'
CANCELLED = [
    ("not", 0, *ADDED, "", "", True),
    ("not", 1, *ADDED, "", "4\n", True),
    ("not", 2, *ADDED, "", "4\n2\n", True),
    ("not", 3, *ADDED, "", "4\n2\n5\n", True),
    ("not", 4, *ADDED, "", "4\n2\n5\nend\n", False),
    ("not", 4294967295, *ADDED, "", "4\n2\n5\nend\n", False),
    ("auto", 1, *ADDED, "", "4 2 5\n", True),
    ("full", 0, *ADDED, "", "", True),
    ("full", 2, *ADDED, "", "4 2 5\nend\n", False),
    ("auto", 1, '"range":[1,17]', "", "", "1 2 3 4 5 6 7 8 9 10 11 12 13 14 15 16\n", True),
    # The source is closed then, or such a run wouldn't return.
    ("not", 2, '"range":[0,1099511627776]', "", "", "0\n1\n", True),
    ("not", 0, '"list":[]', ',["take",0]', "", "", True),
    ("not", 1, '"list":[]', ',["take",0]', "", "end\n", False),
    # A refusal or a fault of the answer is an ending as well.
    ("not", 1, '"list":[1],"refuse":7', "", "", "1\n", True),
    ("full", 0, '"list":[1],"refuse":7', "", "", "", True),
    # With an aggregate the option has no effect.
    ("not", 0, *ADDED, ',"aggregate":"sum"', "11\nend\n", False),
    ("not", 1, *ADDED, ',"aggregate":"count"', "3\nend\n", False),
    ("not", 1, '"range":[1,10]', ',["filter","even"],["take",2]', ',"aggregate":"sum"', "6\nend\n", False),
]

# What each arithmetic formula and each test maps five numbers to: what it is, or why not.
LEAST, GREATEST = -(2**63), 2**63 - 1
EDGES = (LEAST, -1, 0, 1, GREATEST)
OVERFLOW, DIVISION = "overflow", "division"
MAPPED = [
    (["add", LEAST], [OVERFLOW, OVERFLOW, LEAST, LEAST + 1, -1]),
    (["add", -1], [OVERFLOW, -2, -1, 0, GREATEST - 1]),
    (["add", 0], [LEAST, -1, 0, 1, GREATEST]),
    (["add", 1], [LEAST + 1, 0, 1, 2, OVERFLOW]),
    (["add", GREATEST], [-1, GREATEST - 1, GREATEST, OVERFLOW, OVERFLOW]),
    (["mul", LEAST], [OVERFLOW, OVERFLOW, 0, LEAST, OVERFLOW]),
    (["mul", -1], [OVERFLOW, 1, 0, -1, LEAST + 1]),
    (["mul", 0], [0, 0, 0, 0, 0]),
    (["mul", 1], [LEAST, -1, 0, 1, GREATEST]),
    (["mul", GREATEST], [OVERFLOW, LEAST + 1, 0, GREATEST, OVERFLOW]),
    (["mod", LEAST], [0, -1, 0, 1, GREATEST]),
    (["mod", -1], [0, 0, 0, 0, 0]),
    (["mod", 0], [DIVISION, DIVISION, DIVISION, DIVISION, DIVISION]),
    (["mod", 1], [0, 0, 0, 0, 0]),
    (["mod", GREATEST], [-1, -1, 0, 1, 0]),
    (["into", LEAST], [1, OVERFLOW, DIVISION, LEAST, -1]),
    (["into", -1], [0, 1, DIVISION, -1, 0]),
    (["into", 0], [0, 0, DIVISION, 0, 0]),
    (["into", 1], [0, -1, DIVISION, 1, 0]),
    (["into", GREATEST], [0, LEAST + 1, DIVISION, GREATEST, 1]),
    (["below", LEAST], [0, 0, 0, 0, 0]),
    (["below", -1], [1, 0, 0, 0, 0]),
    (["below", 0], [1, 1, 0, 0, 0]),
    (["below", 1], [1, 1, 1, 0, 0]),
    (["below", GREATEST], [1, 1, 1, 1, 0]),
    (["above", LEAST], [0, 1, 1, 1, 1]),
    (["above", -1], [0, 0, 1, 1, 1]),
    (["above", 0], [0, 0, 0, 1, 1]),
    (["above", 1], [0, 0, 0, 0, 1]),
    (["above", GREATEST], [0, 0, 0, 0, 0]),
    (["equal", LEAST], [1, 0, 0, 0, 0]),
    (["equal", -1], [0, 1, 0, 0, 0]),
    (["equal", 0], [0, 0, 1, 0, 0]),
    (["equal", 1], [0, 0, 0, 1, 0]),
    (["equal", GREATEST], [0, 0, 0, 0, 1]),
    (["even"], [1, 0, 1, 0, 0]),
]

# Words, a document, and what is said of it.
REFUSED = [
    ("run --merge not", "[", "not JSON"),
    ("run --merge not", "{}", "wrong shape"),
    ("seq", "", "not JSON"),
    ("plan", '{"version":2}', "wrong shape"),
    ("run", '{"version":3,"source":{"list":[]},"query":[]}', "unknown version"),
    ("run", '{"version":1,"source":{"range":[9223372036854775807,2]},"query":[]}', "source too large"),
    ("run", '{"version":1,"source":{"range":[1,-1]},"query":[]}', "wrong shape"),
    ("parts", '{"version":1,"source":{"list":[]},"query":[["sort"]],"growth":[0,3,512]}', "growth: zero"),
    ("run", '{"version":1,"source":{"list":[]},"query":[],"growth":[4,1,2]}', "growth: first above max"),
    ("run", '{"version":1,"source":{"list":[]},"query":[],"growth":[1,1,65537]}', "growth: max too large"),
    ("run", '{"version":1,"source":{"list":[]},"query":[["sort"]]}', "step 0: unknown"),
    ("run", '{"version":1,"source":{"list":[]},"query":[["select","add",1],["as_ordered"]]}', "step 1: not at source"),
    ("run", '{"version":1,"source":{"list":[]},"query":[["with_degree",65]]}', "step 0: degree out of range"),
    ("run --merge not", '{"version":1,"source":{"list":[]},"query":[["with_merge","full"]]}', "step 0: merge twice"),
    ("run --workers 2", '{"version":1,"source":{"list":[]},"query":[["with_degree",0]]}', "step 0: degree twice"),
    ("run --workers 2 --merge not", '{"version":1,"source":{"list":[]},"query":[["with_degree",0]]}', "step 0: degree twice"),
    ("seq --workers 64", '{"version":1,"source":{"list":[]},"query":[["with_degree",0]]}', "step 0: degree twice"),
    ("run", "[", "not JSON"),
    ("run", "{} {}", "not JSON"),
    ("run", "{}", "wrong shape"),
    ("run", "[]", "wrong shape"),
    ("run", '{"version":1}', "wrong shape"),
    ("run", '{"version":"1","source":{"list":[]},"query":[]}', "wrong shape"),
    ("run", '{"version":1.0,"source":{"list":[]},"query":[]}', "wrong shape"),
    ("run", '{"version":0,"source":{"list":[]},"query":[]}', "unknown version"),
    ("run", '{"version":3,"x":0}', "unknown version"),
    ("run", '{"version":1,"source":{"list":[]},"query":[],"x":0}', "wrong shape"),
    ("run", '{"version":1,"source":{"list":[]},"query":[],"aggregate":"average"}', "wrong shape"),
    ("run", '{"version":1,"source":{"list":[]},"query":[],"aggregate":"Sum"}', "wrong shape"),
    ("run", '{"version":1,"source":{"list":[]},"query":[],"aggregate":["sum"]}', "wrong shape"),
    ("plan", '{"version":1,"source":{"list":[]},"query":[],"aggregate":null}', "wrong shape"),
    ("run", '{"version":1,"source":{"range":[0,1099511627777]},"query":[],"aggregate":"average"}', "wrong shape"),
    ("run", '{"version":1,"source":{"range":[0,1099511627777]},"query":[],"aggregate":"sum"}', "source too large"),
    ("run", '{"version":1,"source":{"list":[]},"query":["take"]}', "step 0: unknown"),
    ("run", '{"version":1,"source":{"list":[]},"query":[["skip_while","even"]]}', "step 0: unknown"),
    ("run", '{"version":2,"source":{"list":[]},"query":[["skip_while"]]}', "step 0: unknown"),
    ("run", '{"version":1,"source":{"list":[]},"query":"take"}', "wrong shape"),
    ("run", '{"version":1,"source":{"list":[1.5]},"query":[]}', "wrong shape"),
    ("run", '{"version":1,"source":{"list":[9223372036854775808]},"query":[]}', "wrong shape"),
    ("run", '{"version":1,"source":{"list":[],"refuse":4294967296},"query":[]}', "wrong shape"),
    ("run", '{"version":1,"source":{"refuse":1},"query":[]}', "wrong shape"),
    ("run", '{"version":1,"source":{"text":"","refuse":1},"query":[]}', "wrong shape"),
    ("run", '{"version":1,"source":{"list":[],"refuse":1,"text":""},"query":[]}', "wrong shape"),
    ("run", '{"version":1,"source":{"range":[1]},"query":[]}', "wrong shape"),
    ("run", '{"version":1,"source":{"repeat":[1,2,3]},"query":[]}', "wrong shape"),
    ("run", '{"version":1,"source":{"range":[9223372036854775807,2]},"query":["sort"]}', "source too large"),
    ("run", '{"version":1,"source":{"range":[0,1099511627777]},"query":[]}', "source too large"),
    ("run", '{"version":1,"source":{"repeat":[0,1099511627777]},"query":[]}', "source too large"),
    ("run", '{"version":1,"source":{"concat":[{"list":[]},{"list":[]}]},"query":[]}', "wrong shape"),
    ("run", '{"version":2,"source":{"concat":[{"concat":[{"list":[]},{"list":[]}]},{"list":[]}]},"query":[]}', "wrong shape"),
    ("run", '{"version":2,"source":{"concat":[{"list":[]},{"concat":[{"list":[]},{"list":[]}]}]},"query":[]}', "wrong shape"),
    ("run", '{"version":2,"source":{"concat":[{"list":[]}]},"query":[]}', "wrong shape"),
    ("run", '{"version":2,"source":{"concat":[{"list":[]},{"list":[]},{"list":[]}]},"query":[]}', "wrong shape"),
    ("run", '{"version":2,"source":{"concat":[{"list":[]},{"list":[]}],"refuse":7},"query":[]}', "wrong shape"),
    ("run", '{"version":2,"source":{"concat":{"list":[]}},"query":[]}', "wrong shape"),
    ("run", '{"version":2,"source":{"concat":[{"range":[0,1099511627776]},{"range":[0,1099511627776]}]},"query":[]}', "source too large"),
    ("run", '{"version":2,"source":{"concat":[{"list":[1],"refuse":7},{"range":[0,1099511627776]}]},"query":[]}', "source too large"),
    ("run", '{"version":2,"source":{"concat":[{"repeat":[0,1099511627776]},{"text":" "}]},"query":[]}', "source too large"),
    ("run", '{"version":2,"source":{"concat":[{"range":[0,9223372036854775808]},{"range":[0,9223372036854775808]}]},"query":[]}', "source too large"),
    ("run", '{"version":2,"source":{"concat":[{"range":[0,1099511627777]},{"list":[null]}]},"query":[]}', "wrong shape"),
    ("run", '{"version":2,"source":{"concat":[{"range":[0,1099511627776]},{"range":[0,1099511627776]}]},"query":[],"growth":[1,3]}', "wrong shape"),
    ("run", '{"version":1,"source":{"list":[]},"query":[],"growth":[1,3]}', "wrong shape"),
    ("run", '{"version":1,"source":{"list":[]},"query":[],"growth":[-1,3,512]}', "wrong shape"),
    ("run", '{"version":1,"source":{"range":[0,1099511627777]},"query":[],"growth":[0,1,1]}', "source too large"),
    ("run", '{"version":1,"source":{"list":[]},"query":[["sort"]],"growth":[0,1,1]}', "growth: zero"),
    ("run", '{"version":2,"source":{"concat":[{"text":"é"},{"range":[0,1099511627775]}]},"query":[]}', "source too large"),
]

# Queries of one step that isn't known.
UNKNOWN_STEPS = [
    '["take"]',
    '["take",1,2]',
    '["take",1.0]',
    '["select"]',
    '["select","add"]',
    '["select","even",1]',
    '["select","plus",1]',
    '["with_merge","some"]',
    '["with_degree",-1]',
    '["as_ordered",0]',
]

ADD_ONE = '{"version":1,"source":{"list":[3,1,4]},"query":[["as_ordered"],["select","add",1]]}'
# Words, a document, the lines and the status.
SHOWN = [
    ("plan --workers 4", '{"version":1,"source":{"range":[1,10]},"query":[["as_ordered"],["select","add",1],["take",5],["filter","even"],["take",2]]}', ["workers 4", "merge auto", "order key", "worker select add 1, take 5, filter even", "after take 2"], 0),
    ("plan --workers 4", '{"version":1,"source":{"range":[1,10]},"query":[["select","add",1],["take",5],["filter","even"],["take",2]]}', ["workers 4", "merge auto", "order arrival", "worker select add 1", "after take 5, filter even, take 2"], 0),
    ("plan --workers=1 --merge=full", '{"version":1,"source":{"list":[]},"query":[["as_ordered"]]}', ["workers 1", "merge full", "order key", "worker none", "after none"], 0),
    ("plan --workers 1 --merge not", '{"version":1,"source":{"list":[]},"query":[["as_ordered"]]}', ["workers 1", "merge not", "order key", "worker none", "after none"], 0),
    ("plan", '{"version":1,"source":{"list":[],"refuse":1},"query":[["with_merge","full"],["with_degree",64],["select_many","up_to"],["skip",-3],["take_while","above",-1],["as_unordered"]]}', ["workers 64", "merge full", "order arrival", "worker select_many up_to", "after skip -3, take_while above -1, as_unordered"], 0),
    ("plan", '{"version":2,"source":{"list":[]},"query":[["as_ordered"],["select","add",1],["skip_while","below",5],["take",2]]}', ["workers 4", "merge auto", "order key", "worker select add 1", "after skip_while below 5, take 2"], 0),
    ("plan", '{"version":2,"source":{"list":[]},"query":[["skip_while","even"],["filter","even"]]}', ["workers 4", "merge auto", "order arrival", "worker none", "after skip_while even, filter even"], 0),
    (
        "plan",
        """{"version":1,"source":{"list":[]},"query":[
            ["with_merge","not"],["with_degree",3],["as_ordered"],["select","mul",-2],["filter","even"],
            ["select_many","up_to"],["take_while","below",9],["take",7],["skip",-1],["as_unordered"]]}""",
        ["workers 3", "merge not", "order key", "worker select mul -2, filter even, select_many up_to, take_while below 9", "after take 7, skip -1, as_unordered"],
        0,
    ),
    # One document by each of these commands.
    ("plan --merge not", ADD_ONE, ["workers 4", "merge not", "order key", "worker select add 1", "after none"], 0),
    ("parts --merge not", ADD_ONE, ["properties true true true", "0:", "1: 0=3", "2: 1=1", "3: 2=4", "end"], 0),
    (
        "history --merge not",
        ADD_ONE,
        [*(f"ticket {it} ask 1 first {it} count 1" for it in range(3)), *(f"ticket {it} ask 1 first 3 count 0 ended" for it in range(3, 7)), "end"],
        0,
    ),
    # Each operator and each formula.
    (
        "plan --merge full --workers 64",
        """{"version":1,"source":{"list":[]},"query":[
            ["select","add",-1],["filter","even"],["select_many","up_to"],["select","mul",2],["select","mod",3],["select","into",4],
            ["take",-5],["skip",6],["take_while","below",7],["filter","above",8],["filter","equal",9],["select_many","repeat",0],["as_unordered"]]}""",
        [
            "workers 64",
            "merge full",
            "order arrival",
            "worker select add -1, filter even, select_many up_to, select mul 2, select mod 3, select into 4",
            "after take -5, skip 6, take_while below 7, filter above 8, filter equal 9, select_many repeat 0, as_unordered",
        ],
        0,
    ),
    ("parts --workers 2", '{"version":1,"source":{"list":[5,6,7,8,9]},"query":[["take",1]]}', ["properties true true true", "0: 0=5 1=6", "1: 2=7 3=8 4=9", "end"], 0),
    ("parts --workers 2", '{"version":1,"source":{"list":[]},"query":[]}', ["properties true true true", "0:", "1:", "end"], 0),
    ("parts", '{"version":1,"source":{"list":[-1],"refuse":7},"query":[["with_degree",1]]}', ["properties true true true", "0: 0=-1", "refused 7"], 3),
    ("parts --workers 2", '{"version":2,"source":{"concat":[{"list":[5,6]},{"range":[7,3]}]},"query":[]}', ["properties true true true", "0: 0=5 1=6", "1: 2=7 3=8 4=9", "end"], 0),
    ("parts --workers 1", '{"version":2,"source":{"concat":[{"list":[4],"refuse":7},{"list":[5]}]},"query":[]}', ["properties true true true", "0: 0=4", "refused 7"], 3),
    ("plan --workers 1", '{"version":2,"source":{"concat":[{"list":[5,6]},{"range":[7,3]}]},"query":[["as_ordered"],["take",2]]}', ["workers 1", "merge auto", "order key", "worker take 2", "after none"], 0),
    ("history --workers 1", '{"version":2,"source":{"concat":[{"list":[1]},{"list":[],"refuse":7}]},"query":[]}', ["ticket 0 ask 1 first 0 count 1", "ticket 1 ask 1 first 1 count 0 refused 7", "refused 7"], 3),
    ("seq", '{"version":1,"source":{"list":[1,2,3]},"query":[["take",2]]}', ["1 2", "end"], 0),
    ("run", '{"version":1,"source":{"list":[1],"refuse":4294967295},"query":[]}', ["1", "refused 4294967295"], 3),
    # Two sources of exactly 2^40 items together, of which a text's are its bytes.
    ("run", '{"version":2,"source":{"concat":[{"list":[7]},{"range":[0,1099511627775]}]},"query":[["as_ordered"],["take",2]]}', ["7 0", "end"], 0),
    ("run", '{"version":2,"source":{"concat":[{"text":"é"},{"range":[0,1099511627774]}]},"query":[]}', ["refused 1"], 3),
    ("plan", '{"version":1,"source":{"list":[1]},"query":[],"aggregate":"sum"}', ["workers 4", "merge auto", "order arrival", "worker none", "after none"], 0),
    ("parts --workers 1", '{"version":1,"source":{"list":[4,2]},"query":[],"aggregate":"min"}', ["properties true true true", "0: 0=4 1=2", "end"], 0),
    ("history --workers 1", '{"version":1,"source":{"list":[]},"query":[],"aggregate":"max"}', ["ticket 0 ask 1 first 0 count 0 ended", "end"], 0),
    (
        "history --workers 2",
        '{"version":1,"source":{"list":[10,20,30,40]},"query":[]}',
        [
            "ticket 0 ask 1 first 0 count 1",
            "ticket 1 ask 1 first 1 count 1",
            "ticket 2 ask 1 first 2 count 1",
            "ticket 3 ask 1 first 3 count 1",
            "ticket 4 ask 1 first 4 count 0 ended",
            "ticket 5 ask 1 first 4 count 0 ended",
            "end",
        ],
        0,
    ),
    (
        "history --workers 1",
        '{"version":1,"source":{"list":[]},"query":[]}',
        [
            "ticket 0 ask 1 first 0 count 0 ended",
            "end",
        ],
        0,
    ),
    # The degree is 4 where none is given, and no other step counts.
    (
        "history",
        '{"version":1,"source":{"repeat":[7,1]},"query":[["as_ordered"],["select","into",0],["take",0]]}',
        [
            "ticket 0 ask 1 first 0 count 1",
            "ticket 1 ask 1 first 1 count 0 ended",
            "ticket 2 ask 1 first 1 count 0 ended",
            "ticket 3 ask 1 first 1 count 0 ended",
            "ticket 4 ask 1 first 1 count 0 ended",
            "end",
        ],
        0,
    ),
    # Each partition's chunks grow by themselves: one at a time, then four, and then no more.
    (
        "history --workers 1 --merge full",
        '{"version":1,"source":{"range":[5,10]},"query":[],"growth":[1,2,4]}',
        [
            "ticket 0 ask 1 first 0 count 1",
            "ticket 1 ask 1 first 1 count 1",
            "ticket 2 ask 2 first 2 count 2",
            "ticket 3 ask 2 first 4 count 2",
            "ticket 4 ask 4 first 6 count 4",
            "ticket 5 ask 4 first 10 count 0 ended",
            "end",
        ],
        0,
    ),
    (
        "history",
        '{"version":1,"source":{"range":[0,10]},"query":[["with_degree",2]],"growth":[2,1,8]}',
        [
            "ticket 0 ask 2 first 0 count 2",
            "ticket 1 ask 2 first 2 count 2",
            "ticket 2 ask 4 first 4 count 4",
            "ticket 3 ask 4 first 8 count 2 ended",
            "ticket 4 ask 8 first 10 count 0 ended",
            "end",
        ],
        0,
    ),
    (
        "history --workers 1",
        '{"version":1,"source":{"range":[0,79]},"query":[],"growth":[2,5,9]}',
        [
            *(f"ticket {it} ask 2 first {2 * it} count 2" for it in range(5)),
            *(f"ticket {5 + it} ask 4 first {10 + 4 * it} count 4" for it in range(5)),
            *(f"ticket {10 + it} ask 8 first {30 + 8 * it} count 8" for it in range(5)),
            "ticket 15 ask 9 first 70 count 9",
            "ticket 16 ask 9 first 79 count 0 ended",
            "end",
        ],
        0,
    ),
    # A partition that has had a tail is passed over.
    (
        "history --workers 3",
        '{"version":1,"source":{"range":[0,7]},"query":[],"growth":[3,1,4]}',
        [
            "ticket 0 ask 3 first 0 count 3",
            "ticket 1 ask 3 first 3 count 3",
            "ticket 2 ask 3 first 6 count 1 ended",
            "ticket 3 ask 4 first 7 count 0 ended",
            "ticket 4 ask 4 first 7 count 0 ended",
            "end",
        ],
        0,
    ),
    (
        "history --workers 1",
        '{"version":1,"source":{"list":[1],"refuse":7},"query":[]}',
        [
            "ticket 0 ask 1 first 0 count 1",
            "ticket 1 ask 1 first 1 count 0 refused 7",
            "refused 7",
        ],
        3,
    ),
    (
        "history --workers 2",
        '{"version":1,"source":{"text":"7 x 9"},"query":[]}',
        [
            "ticket 0 ask 1 first 0 count 1",
            "ticket 1 ask 1 first 1 count 0 refused 1",
            "ticket 2 ask 1 first 1 count 0 refused 1",
            "refused 1",
        ],
        3,
    ),
    (
        "history --workers 1",
        '{"version":1,"source":{"list":[],"refuse":4294967295},"query":[],"growth":[65536,1,65536]}',
        [
            "ticket 0 ask 65536 first 0 count 0 refused 4294967295",
            "refused 4294967295",
        ],
        3,
    ),
]


def lines_of(option, items, ending):
    return [" ".join(map(str, it)) for it in in_batches(option, items, ending)] + [ending]


def output_of(option, items, ending):
    return "".join(it + "\n" for it in lines_of(option, items, ending)).encode()


def may_come(seen, merge, items, count, last, status):
    """Whether a run printed so many of these items, in batches as the option says, and then this line."""
    batches, ending = batches_in(seen.output)
    came = sum(batches, [])
    is_part = not Counter(came) - Counter(items) and (count is None or len(came) == count)
    return is_part and in_batches(merge, came, ending) == batches and (ending, seen.status, seen.errors) == (last, status, b"")


def main():
    build()
    tests = Tests()

    def ends(words, document, wanted):
        seen = run(words, document.encode())
        tests.check(f"plinq {' '.join(words)} < {document}", seen == wanted, f"wanted {wanted}; seen {seen}")

    versions = [(1, *row) for row in ANSWERS] + [(2, *row) for row in ANSWERS_OF_VERSION_2]
    for version, merge, source, steps, output, status in versions:
        document = f'{{"version":{version},"source":{{{source}}},"query":[["as_ordered"]{steps}]}}'
        for command in ("run", "seq"):
            # (once without options)
            for options in [["--workers", it, "--merge", merge] for it in ("1", "2", "64")] if merge else [[]]:
                ends([command, *options], document, Outcome(status, output.encode(), b""))
    def answers(source, steps, items, ending, growth, option, version=1, commands=("seq", *RUNS)):
        document = f'{{"version":{version},"source":{{{source}}},"query":[["as_ordered"]{steps}]{growth}}}'
        wanted = Outcome(status_of(ending), output_of(option, items, ending), b"")
        for command in commands:
            ends([*command.split(), "--merge", option], document, wanted)

    for version, source, steps, items, ending in IN_ALL_WAYS:
        for growth, option in product(GROWTHS, OPTIONS):
            answers(source, steps, items, ending, growth, option, version)
    for length, option in product(range(41), OPTIONS):
        # a refusal after a list of each length
        more_by_one = [*range(2, length + 2)]
        answers(f'"list":{[*range(1, length + 1)]},"refuse":7', ',["select","add",1]', more_by_one, "refused 7", GROWTHS[2], option)
    for length, option in product(range(1, 49), ("auto", "full")):
        # the longest lines that there are, since each number has 20 bytes
        answers(f'"repeat":[{LEAST},{length}]', "", [LEAST] * length, "end", "", option, commands=("seq", "run"))
    for (merge, source, steps, *wanted), growth in product(IN_ANY_ORDER, GROWTHS[:2]):
        document = f'{{"version":1,"source":{{{source}}},"query":[{steps}]{growth}}}'
        for options in [["--workers", it, "--merge", merge] for it in ("1", "2", "64")] if merge else [[]]:
            seen = run(["run", *options], document.encode())
            tests.check(f"plinq run {' '.join(options)} < {document}", may_come(seen, merge, *wanted), f"wanted {wanted}; seen {seen}")
    for merge, most, source, steps, more, output, is_cancelled in CANCELLED:
        document = f'{{"version":1,"source":{{{source}}},"query":[["as_ordered"]{steps}]{more}}}'
        wanted = Outcome(5, output.encode(), b"plinq: cancelled\n") if is_cancelled else Outcome(0, output.encode(), b"")
        for workers in ("1", "2", "64"):
            ends(["run", "--workers", workers, "--merge", merge, "--cancel-after", str(most)], document, wanted)
    # (17 numbers: each of the first batches, the last one, and more than there are)
    document = '{"version":1,"source":{"range":[1,17]},"query":[["as_ordered"]],"growth":[1,1,1]}'
    for option, most, words in product(OPTIONS, range(21), RUNS):
        lines, status, errors = cancelled_after(most, lines_of(option, [*range(1, 18)], "end"), 0)
        wanted = Outcome(status, "".join(it + "\n" for it in lines).encode(), errors)
        ends([*words.split(), "--merge", option, "--cancel-after", str(most)], document, wanted)
    for source, steps, aggregate, output, status in AGGREGATES:
        for growth in GROWTHS:
            document = f'{{"version":1,"source":{{{source}}},"query":[{steps}],"aggregate":"{aggregate}"{growth}}}'
            for command in ("run", "seq"):
                for options in [], ["--workers", "1"], ["--workers", "64", "--merge", "not"], ["--workers", "2", "--merge", "full"]:
                    ends([command, *options], document, Outcome(status, output.encode(), b""))
    for formula, values in MAPPED:
        for x, value in zip(EDGES, values):
            # (a test asks what a number is mapped to, and an expansion has just that)
            made = {"select": f"{value}\nend\n", "select_many": f"{value}\nend\n", "filter": f"{x}\nend\n" if value else "end\n"}
            for step, output in made.items():
                document = f'{{"version":1,"source":{{"list":[{x}]}},"query":[["as_ordered"],{json.dumps([step, *formula])}]}}'
                wanted = Outcome(4, f"fault {value}\n".encode(), b"") if isinstance(value, str) else Outcome(0, output.encode(), b"")
                for command in ("run", "seq"):
                    ends([command], document, wanted)
    for words, document, lines, status in SHOWN:
        ends(words.split(), document, Outcome(status, "".join(it + "\n" for it in lines).encode(), b""))
    unknown = [("run", f'{{"version":1,"source":{{"list":[]}},"query":[{it}]}}', "step 0: unknown") for it in UNKNOWN_STEPS]
    for words, document, why in REFUSED + unknown:
        ends(words.split(), document, Outcome(2, b"", f"plinq: document: {why}\n".encode()))
    tests.end()


if __name__ == "__main__":
    main()
