"""Command lines over small files, each with what it must write and report and its exit status, worked out by hand."""

# Five vertices, of which the last is reached from nowhere; questions; and what they are answered.
FIVE = "p sp 5 7\na 1 2 4\na 1 3 1\na 3 2 2\na 2 4 5\na 3 4 8\na 4 4 0\na 5 1 3\n"
FROM_ONE = "p aux sp ss 1\ns 1\n"
FROM_THREE = "p aux sp ss 3\ns 1\ns 4\ns 5\n"
SHORTEST = "p ans ss 1 shortest\ns 1\nd 1 0 0 0\nd 2 3 2 3\nd 3 1 1 1\nd 4 8 3 2\nu 5\n"
WIDEST = "p ans ss 1 widest\ns 1\nd 1 4294967296 0 0\nd 2 4 1 1\nd 3 1 1 1\nd 4 4 2 2\nu 5\n"
HOPS = "p ans ss 1 hops\ns 1\nd 1 0 0 0\nd 2 1 1 1\nd 3 1 1 1\nd 4 2 2 2\nu 5\n"
REACH = "p ans ss 1 reach\ns 1\nd 1 0 0 0\nd 2 0 1 1\nd 3 0 1 1\nd 4 0 2 2\nu 5\n"
WITHIN = "p ans ss 1 within\ns 1\nd 1 0 0 0\nu 2\nu 3\nu 4\nu 5\n"
WITHIN_FIVE = "p ans ss 1 within\ns 1\nd 1 0 0 0\nd 2 3 2 3\nd 3 1 1 1\nu 4\nu 5\n"

# Files by their names; `-` must never be opened by this name.
FILES = {
    "g": FIVE, "q": FROM_ONE, "q3": FROM_THREE, "right": SHORTEST, "wide": WIDEST, "within": WITHIN,
    "wrong": "p ans ss 1 shortest\ns 1\nd 1 0 0 0\nd 2 3 2 3\nd 3 1 1 1\nd 4 9 2 3\nu 5\n",
    "own": SHORTEST.replace("shortest", "own"), "30": "s 1\n", "31": "p ans ss 1 fastest\n", "32": "p ans ss 1 shortest\nq 1 2\n",
    "33": "p ans ss 1 shortest\ns\n", "34": "p ans ss 1 shortest\ns x\n", "35": "p ans ss 1048577 shortest\n", "36": "p ans ss 1 shortest\n",
    "-": FROM_ONE, "pairs": "p aux sp p2p 2\nq 4 1\nq 1 4\n", "three": "p aux sp p2p 3\nq 1 4\nq 4 1\nq 5 5\n", "lists": "p aux sp ms 2\nm 5 4\nm 1\n", "none.ss": "p aux sp ss 0\n",
    # Orders of the five vertices: first to last, last to first; and each fault.
    "upward": "c places\n0\n\n1\n 2\t\r\n03\n4", "downward": "4\n3\n2\n1\n0\n", "o14": "0\n1 2\n", "o15": "0\nx\n", "o16": "0\n1\n5\n",
    "o18": "4\n3\n2\n1\n0\nc\nx y\n", "o19": "4\n3\n2\n1\n", "o20": "3\n0\n3\n", "one": "0\n", "single": "p sp 1 0\n",
    "dense": "p sp 300 44850\n" + "".join(f"a {u} {v} 1\n" for v in range(1, 301) for u in range(1, v)),
}

STDIN_TWICE = "error: only one input can be `-`, standard input; a bundle or requests take it\n"
TWO_SOLVERS = "error: `--plain` and `--factors` cannot be used together\n"
NO_FILE = "error: `--accounts` needs a file; one that is named `-` is `./-`\n"
FILE_TAKEN = "error: `--accounts` would overwrite an input, or the output or error output\n"
UNCOUNTED = "error: `--plain` and `--factors` count nothing: leave out `--accounts`\n"
NO_SUCH_FAULT = "error: no fault has this number; `diffuse faults` lists them\n"
UNFACTORED = "error: `--order` needs `--factors`\n"
VERSION = "diffuse 1.2.0 (rattle-kit-13)\n"
THIRTEEN = """fault 13: a line that this file does not have
  example: `x 1 2 3` in a graph, `q 1 2` in a .ss file
  cause: in line 1 of a graph, a compressed file: give `<(zcat FILE)`
"""
FORTY_TWO = """fault 42: the output could not be written
  example: `diffuse solve roads.gr roads.ss > /dev/full`
  cause: a full disk, or a reader that has gone, such as `head` in `| head`
"""


def fault(text):
    return f"diffuse: fault {text}\n"


# What a command line writes and reports, and its status.
COMMANDS = [
    ("solve g q", SHORTEST, "", 0),
    ("solve --algebra widest g q", WIDEST, "", 0),
    ("solve --algebra=reach g q", REACH, "", 0),
    ("solve g q --algebra within --limit 0", WITHIN, "", 0),
    ("solve q g", "", fault("12 graph line 1"), 3),
    ("solve g g", "", fault("12 questions line 1"), 3),
    ("solve none q", "", fault("1 graph"), 3),
    ("solve q none", "", fault("1 questions"), 3),
    ("solve none none", "", fault("1 graph"), 3),
    ("solve none q --limit 0", "", fault("43"), 2),
    ("solve none q --algebra within", "", fault("43"), 2),
    ("solve g q --limit 0", "", fault("43"), 2),
    ("solve g q --algebra within", "", fault("43"), 2),
    ("solve g q --algebra widest --factors", "", fault("43"), 2),
    ("solve g q --plain", SHORTEST, "", 0),
    ("solve g q --workers 64 --shards 64 --width 64 --budget 1", SHORTEST, "", 0),
    ("solve g q --turns 0", "p ans ss 1 shortest\n", fault("40"), 6),
    ("solve g q --turns 0 --plain", SHORTEST, "", 0),
    ("solve g none.ss --turns 0", "p ans ss 0 shortest\n", "", 0),
    ("check g q right", "valid\n", "", 0),
    ("check g q wide", "valid\n", "", 0),
    ("check g q within --limit 0", "valid\n", "", 0),
    ("check g q within --limit 1", "invalid 1 3 6\n", "", 1),
    ("check g q wrong", "invalid 1 4 2\n", "", 1),
    ("check g q ./-", "", fault("31 answers line 1"), 3),
    ("check g q own", "", fault("31 answers"), 3),
    ("check g q own --limit 5", "", fault("31 answers"), 3),
    ("check g q right --limit 5", "", fault("43"), 2),
    ("check g q within", "", fault("43"), 2),
    ("check none q right", "", fault("1 graph"), 3),
    ("check q none right", "", fault("1 questions"), 3),
    ("check none none none", "", fault("1 graph"), 3),
    ("check q none none", "", fault("1 questions"), 3),
    ("check q g none", "", fault("1 answers"), 3),
    ("check q g 30", "", fault("12 graph line 1"), 3),
    ("check q q 30", "", fault("12 graph line 1"), 3),
    ("check g g 30", "", fault("12 questions line 1"), 3),
    ("check g q 30", "", fault("30 answers line 1"), 3),
    ("check g q 31", "", fault("31 answers line 1"), 3),
    ("check g q 32", "", fault("32 answers line 2"), 3),
    ("check g q 33", "", fault("33 answers line 2"), 3),
    ("check g q 34", "", fault("34 answers line 2"), 3),
    ("check g q 35", "", fault("35 answers line 1"), 3),
    ("check g q 36", "", fault("36 answers line 2"), 3),
    ("solve g -", "", fault("10 questions line 1"), 3),
    ("solve ./- q", "", fault("12 graph line 1"), 3),
    ("solve - none", "", fault("1 questions"), 3),
    ("solve none -", "", fault("1 graph"), 3),
    ("solve - -", "", STDIN_TWICE, 2),
    ("check g - -", "", STDIN_TWICE, 2),
    ("check - q -", "", STDIN_TWICE, 2),
    ("check - - none", "", STDIN_TWICE, 2),
    ("check - - -", "", STDIN_TWICE, 2),
    ("solve - - --limit 5", "", fault("43"), 2),
    ("solve g q --plain --factors", "", TWO_SOLVERS, 2),
    ("serve g --plain --factors --limit 5", "", TWO_SOLVERS, 2),
    ("bundle --factors --plain --accounts a", "", TWO_SOLVERS, 2),
    ("solve g q --accounts g", "", FILE_TAKEN, 2),
    ("solve g q --accounts q", "", FILE_TAKEN, 2),
    ("solve g none --accounts g", "", fault("1 questions"), 3),
    ("solve g q --accounts -", "", NO_FILE, 2),
    ("solve g - --accounts -", "", NO_FILE, 2),
    ("bundle --accounts -", "", NO_FILE, 2),
    ("solve --accounts=g g q --progress", "", FILE_TAKEN, 2),
    ("solve g q --accounts a --plain", "", UNCOUNTED, 2),
    ("bundle --plain --accounts a", "", UNCOUNTED, 2),
    ("solve g q --factors --order upward", SHORTEST, "", 0),
    ("solve g q --order downward --algebra hops --factors", HOPS, "", 0),
    ("solve g q --factors --order=upward --algebra within --limit 0", WITHIN, "", 0),
    ("solve g q --order upward", "", UNFACTORED, 2),
    ("solve g q --order upward --plain", "", UNFACTORED, 2),
    ("bundle --order upward --accounts a", "", UNFACTORED, 2),
    ("serve none --order none --limit 5", "", UNFACTORED, 2),
    ("solve g q --order upward --plain --factors", "", TWO_SOLVERS, 2),
    ("solve g q --order upward --factors --accounts a", "", UNCOUNTED, 2),
    ("solve g q --order upward --factors --algebra widest", "", fault("43"), 2),
    ("solve g q --factors --order none", "", fault("1 order"), 3),
    ("solve g none --factors --order none", "", fault("1 questions"), 3),
    ("solve q g --factors --order none", "", fault("1 order"), 3),
    ("solve q g --factors --order o14", "", fault("12 graph line 1"), 3),
    ("solve g g --factors --order o14", "", fault("12 questions line 1"), 3),
    *((f"solve g q --factors --order {name}", "", fault(f"{place}"), 3) for name, place in (
        ("o14", "14 order line 2"), ("o15", "15 order line 2"), ("o16", "16 order line 3"), ("o18", "18 order line 7"), ("o19", "19 order line 5"),
        ("o20", "20 order line 3"), ("one", "19 order line 2"), ("g", "14 order line 1"), ("q", "14 order line 1"))),
    ("solve - q --factors --order -", "", STDIN_TWICE, 2),
    ("solve g - --factors --order -", "", STDIN_TWICE, 2),
    ("bundle --factors --order -", "", STDIN_TWICE, 2),
    ("bundle --factors --order none", "", fault("1 order"), 3),
    ("serve g --factors --order -", "", STDIN_TWICE, 2),
    ("order single", "0\n", "", 0),
    ("order none", "", fault("1 graph"), 3),
    ("order q", "", fault("12 graph line 1"), 3),
    ("order dense", "", fault("44"), 3),
    ("faults 13", THIRTEEN, "", 0),
    ("faults 42 13 42", FORTY_TWO + THIRTEEN + FORTY_TWO, "", 0),
    ("faults 13 14 4", "", NO_SUCH_FAULT, 2),
    ("faults 0", "", NO_SUCH_FAULT, 2),
    ("faults 18446744073709551615", "", NO_SUCH_FAULT, 2),
    ("--version", VERSION, "", 0),
]

# The same with something on standard input.
GIVEN = [
    ("serve g", FROM_ONE * 2, SHORTEST * 2, "", 0),
    ("serve --plain g", "s 1\n" + FROM_ONE + "p aux sp p2p 2\nq 1 4\n", "f 10 1\n" + SHORTEST + "f 19 6\n", "", 0),
    ("serve g --algebra hops", FROM_ONE, HOPS, "", 0),
    ("serve g --algebra within --limit 3 --plain", FROM_ONE, WITHIN_FIVE, "", 0),
    ("serve g --turns 0", FROM_ONE, "p ans ss 1 shortest\nf 40 0\n", "", 0),
    ("serve g --turns 0 --workers 1", FROM_ONE + "p aux sp ss 0\n" + FROM_ONE,
     "p ans ss 1 shortest\nf 40 0\np ans ss 0 shortest\np ans ss 1 shortest\nf 40 0\n", "", 0),
    ("serve g --algebra widest --plain", FROM_ONE, WIDEST, "", 0),
    ("serve ./-", FROM_ONE, "", fault("12 graph line 1"), 3),
    ("serve none", FROM_ONE, "", fault("1 graph"), 3),
    ("serve none --limit 5", FROM_ONE, "", fault("43"), 2),
    ("serve -", FIVE, "", STDIN_TWICE, 2),
    *((f"serve g --factors --order {order}", FROM_ONE * 2, SHORTEST * 2, "", 0) for order in ("upward", "downward")),
    ("serve --factors g --order o20", FROM_ONE, "", fault("20 order line 3"), 3),
    ("serve --factors q --order o20", FROM_ONE, "", fault("12 graph line 1"), 3),
    ("serve --factors g --order none", FROM_ONE, "", fault("1 order"), 3),
    ("bundle --factors --order downward", FIVE + FROM_ONE, SHORTEST, "", 0),
    ("bundle --factors --order o19", FIVE + FROM_ONE, "", fault("19 order line 5"), 3),
    ("bundle --factors --order o19", FIVE, "", fault("10 bundle line 9"), 3),
    ("solve g q --factors --order -", "0\n1\n2\n3\n4\n", SHORTEST, "", 0),
    ("solve g q --factors --order -", "0\n1\n1\n", "", fault("20 order line 3"), 3),
    ("solve g q --factors --order ./-", FIVE, "", fault("14 order line 1"), 3),
    ("order -", "p sp 0 0\n", "", "", 0),
    ("order -", "p sp 2 0\nx\n", "", fault("13 graph line 2"), 3),
    ("solve - q", FIVE, SHORTEST, "", 0),
    ("solve g -", FROM_ONE, SHORTEST, "", 0),
    ("solve g ./-", FIVE, SHORTEST, "", 0),
    ("solve --plain - ./-", FIVE, SHORTEST, "", 0),
    ("check - q right", FIVE, "valid\n", "", 0),
    ("check g - right", FROM_ONE, "valid\n", "", 0),
    ("check g q -", SHORTEST, "valid\n", "", 0),
    ("bundle", FIVE + FROM_ONE, SHORTEST, "", 0),
    ("bundle --algebra hops", FIVE + FROM_ONE, HOPS, "", 0),
    ("bundle --algebra within --limit 05", FIVE + FROM_ONE, WITHIN_FIVE, "", 0),
    ("bundle --algebra within --limit=9223372036854775808", FIVE + FROM_ONE, SHORTEST.replace("shortest", "within"), "", 0),
    ("bundle --limit 5", FIVE + FROM_ONE, "", fault("43"), 2),
    ("bundle --turns 0", FIVE + FROM_ONE, "p ans ss 1 shortest\n", fault("40"), 6),
    *(("bundle", text, "", fault(f"{place}"), 3) for text, place in (
        ("p sp 1 0\n", "10 bundle line 2"), ("p sp 1 0\np sp 1 0\n", "11 bundle line 2"), ("p sp 1\n", "12 bundle line 1"),
        ("p sp 1 0\nx\n", "13 bundle line 2"), ("p sp 1 1\na 1 1\n", "14 bundle line 2"), ("p sp 1 x\n", "15 bundle line 1"),
        ("p sp 1 1\na 1 1 4294967296\n", "16 bundle line 2"), ("p sp 1 1\na 1 2 0\n", "17 bundle line 2"),
        ("p sp 1 0\na 1 1 0\n", "18 bundle line 2"), ("p sp 1 1\n", "19 bundle line 2"))),
]

# Requests to a service with `--plain`, and its replies: no question is answered by the header; ends of the input; faults, each of which ends its reply.
ONE, ONE_REPLY = "p aux sp p2p 1\nq 1 4\n", "p ans p2p 1 shortest\nq 1 4\nd 8 3\nr 1 3 2 4\n"
SERVED = [
    *((f"p aux sp {kind} 0\n" + ONE, f"p ans {kind} 0 shortest\n" + ONE_REPLY) for kind in ("ss", "p2p", "ms")),
    ("", ""), ("c nothing\n\n", ""), (ONE[:-1], ONE_REPLY), (ONE + "q 1 4\nq 1 4\n" + ONE, ONE_REPLY + "f 10 3\n" + ONE_REPLY),
    ("p aux sp p2p 2\nq 1 4\n", "f 19 3\n"), ("p aux sp p2p 2\nq 1 4", "f 19 3\n"), ("p aux sp p2p 1", "f 19 2\n"),
    ("p aux sp p2p 1\nq 1 6\nq 1 4\n", "f 17 2\n"),
    *((fault + ONE, "".join(f"f {place}\n" for place in places) + ONE_REPLY) for fault, *places in (
        ("q 1 4\n", "10 1"), ("s 1\nm 1 2\nx\n", "10 1"), ("m 1\n", "10 1"), ("x 1\ny\n", "13 1"), ("p aux sp p2p\nq 1 4\n", "12 1"),
        ("p sp 5 7\na 1 2 4\n", "12 1"), ("p aux sp abc 1\n", "12 1"), ("p aux sp p2p x\nq 1 4\n", "15 1"), ("p aux sp p2p 1048577\n", "16 1"),
        ("p aux sp p2p 1\n\ns 1\n", "13 3"), ("p aux sp p2p 1\nq 1\n", "14 2"), ("p aux sp p2p 1\nq 1 a\n", "15 2"),
        ("p aux sp p2p 2\nq 1 4\nq 1 6\n", "17 3"), ("p aux sp ms 1\nm 0 1\n", "17 2"), ("p aux sp p2p 2\nq 1 4\n", "19 3"),
        ("p aux sp p2p 2\nq 1 4\np aux sp\n", "19 3", "12 3"), ("p aux sp p2p 1\nq 1 6\nq 1 7\np x\n", "17 2", "12 4"))),
]
GIVEN += [("serve --plain g", requests, replies, "", 0) for requests, replies in SERVED]

# What is reported while a command runs, if it is asked to show it. In any order in which a vertex of least degree is next there are as many links as
# pairs of vertices that arcs join, six, and as many triangles as there are of them, two.
FACTORED = "diffuse: an order was found (6 links, 2 triangles)\ndiffuse: the graph is factored\n"
THREE_PAIRS = "p ans p2p 3 shortest\nq 1 4\nd 8 3\nr 1 3 2 4\nq 4 1\nu\nq 5 5\nd 0 0\nr 5\n"
SHOWN = "diffuse: 1 of 1 questions answered\n"
PROGRESS = [
    ("solve g q --progress", SHORTEST, SHOWN, 0),
    ("solve g q --plain --progress", SHORTEST, SHOWN, 0),
    ("solve g q --factors --progress", SHORTEST, FACTORED + SHOWN, 0),
    ("solve g q --factors --order upward --progress", SHORTEST, "diffuse: the graph is factored\n" + SHOWN, 0),
    ("solve g three --factors --progress", THREE_PAIRS, FACTORED + "".join(f"diffuse: {k} of 3 questions answered\n" for k in (1, 2, 3)), 0),
    ("solve g none.ss --factors --algebra hops --progress", "p ans ss 0 hops\n", "diffuse: 0 of 0 questions answered\n" + FACTORED, 0),
    ("solve g q --accounts a", SHORTEST, "", 0),
    ("solve g q --accounts a --progress", SHORTEST, SHOWN, 0),
    ("solve g q --accounts none/a", "", fault("42"), 5),
    ("solve q g --accounts none/a", "", fault("42"), 5),
    ("solve none q --accounts none/a", "", fault("1 graph"), 3),
    ("solve q g --accounts a --progress", "", fault("12 graph line 1"), 3),
    ("solve g q --limit 5 --accounts none/a", "", fault("43"), 2),
    ("bundle --accounts none/a", "", fault("42"), 5),
    ("solve g q --turns 0 --accounts a --progress", "p ans ss 1 shortest\n", fault("40"), 6),
]

# What is counted: under `reach` each arc that leads on once, and the message that opens.
ACCOUNTS = [
    *((f"solve g q3 --algebra reach {width}", "p tally 3 reach\nt 1 1 7 7 7 7\nt 2 4 2 2 2 2\nt 3 5 8 8 8 8\n")
      for width in ("", "--width 2", "--width 64")),
    ("solve g three --algebra reach", "p tally 3 reach\nt 1 1 7 7 7 7\nt 2 4 2 2 2 2\nt 3 5 8 8 8 8\n"),
    ("solve g pairs --algebra reach", "p tally 2 reach\nt 1 4 2 2 2 2\nt 2 1 7 7 7 7\n"),
    *((f"solve g lists --algebra reach --width {width}", "p tally 3 reach\nt 1 5 8 8 8 8\nt 1 4 2 2 2 2\nt 2 1 7 7 7 7\n") for width in (1, 3)),
    ("solve g none.ss --algebra reach", "p tally 0 reach\n"),
    ("solve g q --workers 1 --shards 1 --budget 1", "p tally 1 shortest\nt 1 1 9 9 9 9\n"),
]

# Help and wrong usage, with the status, which go to one output alone. The options are wrong for each command that answers.
WRONG_OPTIONS = [
    *(f"--{name} {number}" for name, least, most in (("workers", 1, 64), ("shards", 1, 64), ("width", 1, 64), ("budget", 1, 65536))
      for number in (least - 1, most + 1)),
    "--turns 1000000000001", "--turns x", "--ahead 4294967296", "--limit 9223372036854775809", "--limit -1", "--limit", "--plain yes",
    "--deal workers", "--deal", "--algebra fast", "--algebra own", "--order",
]
WRONG = [
    "", "solve g", "solve g q more", "solve g q --accounts", "solve - -", "solve g q --plain --accounts a", "bundle g", "serve", "serve -", "serve g q",
    "serve g --progress", "serve g --accounts a", "check g q", "check g q a more", "check g q a --algebra hops", "order", "order g q", "order g --factors",
    "order g --order o", "faults 4", "faults x", "faults -1", "faults 13 --plain", "help faults 13",
    *(f"{command} {options}" for command in ("solve g q", "bundle", "serve g") for options in WRONG_OPTIONS),
]
HELP = [
    *((line, 0) for line in (
        "--help", "-h", "help check", "help solve", "solve --help", "solve -h", "bundle --help", "serve --help", "serve -h", "help serve", "check --help",
        "order --help", "faults --help", "faults")),
    *((line, 2) for line in WRONG),
]

# What the explanation of each fault has: in its meaning, and in its cause.
EXPLAINED = {
    1: ("opened or read", "no such file"), 2: ("4294967296 bytes", "endless stream"), 3: ("start of a worker", "too little memory"),
    10: ("no problem line", "first lines were cut off"), 11: ("second problem line", "two files in one"), 12: ("wrong fields", "another format"),
    13: ("does not have", "compressed file"), 14: ("number of fields", "arcs without weights"), 15: ("not a number", "scale the weights"),
    16: ("too large", "weight above 4294967295"), 17: ("no such vertex", "numbered from 0"), 18: ("more lines", "counted once"), 19: ("fewer lines", "cut short"),
    20: ("earlier line of an order", "`gpmetis`"), 30: ("begin with a header", "another file"), 31: ("algebra that is not here", "misspelled name"),
    32: ("does not belong", "sorted, left out"), 33: ("number of fields", "`d V VALUE HOPS PARENT`"), 34: ("not a number", "`inf`"), 35: ("too large", "huge value"),
    36: ("end before the last", "has not ended"), 40: ("limit of turns", "`--turns`"), 41: ("gate stopped", "caller's own"), 42: ("output", "full disk"),
    43: ("go with the algebra", "required with `within`"), 44: ("too dense", "more arcs than roads have"),
}

# What help says of each algebra, and of each reason of a verdict.
SAID = [
    ("solve --help", {"shortest": "the least sum of weights", "widest": "the greatest least weight", "reach": "any", "hops": "the fewest arcs",
                      "reliable": "the greatest product of chances", "within": "the least sum of weights, up to `--limit`"}),
    ("check --help", {"1": "wrong header, question, source", "2": "there is a better value", "3": "not a possible value", "4": "wrong hops", "5": "a lower-numbered parent",
                      "6": "marked unreached", "7": "another route"}),
]
