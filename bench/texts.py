"""Texts for the lexer and the parser."""

LINES = [
    "update event model = List.map (\\item -> item.size + 12) (Dict.values model.items)\n",
    "-- the label of the window, and its width in chars\n",
    "label = \"size: \" ++ toString width ++ \"\\n\" {- {- nested -} kept -}\n",
    "move key state = if key == 'a' then { state | x <- state.x - 1 } else state\n",
]

ITEMS = [
    "    {0} : Int -> {{ model | size : Int }} -> List Int\n    {0} step model = List.map (\\item -> item.size + step) (Dict.values model.items)\n",
    "    {0} event =\n      case event of\n        Press key -> [key, -1, 2 * key + 1]\n        Move (x, y) as move -> x :: y :: []\n        _ -> [1 .. 9]\n",
    "    {0} key state =\n      if key == 'a' then {{ state | x <- state.x - 1, y <- 0 }} else {{ state - z | w = \"text\" }}\n",
    "    {0} x =\n      let (a, b) = split x\n          sum = a + b\n      in if | sum > 3 -> sum | sum < 0 -> -sum | otherwise -> (\\y -> y `mod` 3) sum\n",
]

FORMS = {
    "brackets": ("(" * 100, "a", ")" * 100),
    "lists": ("[" * 100, "a", "]" * 100),
    "tuples": ("(b, " * 100, "a", ")" * 100),
    "records": ("{ b | x = " * 100, "a", " }" * 100),
    "lambdas": ("\\b -> " * 100, "a", ""),
    "ifs": ("if b then c else " * 100, "a", ""),
    "lets": ("let x = " * 100, "a", " in b" * 100),
    "cases": ("case b of c -> " * 100, "a", ""),
    "chains": ("b + (" * 50, "a", ")" * 50),
    "calls": ("f (" * 50, "a", ")" * 50),
    "negations": ("-(" * 50, "a", ")" * 50),
    "guards": ("if | b -> (" * 50, "a", ")" * 50),
    "accesses": ("", "a" + ".x" * 100, ""),
    "refused": ("(" * 100000, "a", ")" * 100000),
}


def names(size):
    """Names, operators, comments and texts, of so many bytes."""
    out, used, turn = [], 0, 0
    while used + len(LINES[turn % 4]) <= size:
        out.append(LINES[turn % 4])
        used += len(LINES[turn % 4])
        turn += 1
    return "".join(out) + " " * (size - used)


def definitions(size):
    """One `let` of at most so many bytes."""
    out, used, turn = ["let\n"], 10, 0
    while True:
        item = ITEMS[turn % 4].format(f"name{turn}")
        if used + len(item) > size:
            break
        out.append(item)
        used += len(item)
        turn += 1
    return "".join(out) + "in 1\n"


def one_let(size):
    text = definitions(size)
    return text + " " * (size - len(text))


def deep_forms():
    return {name: "".join(parts) for name, parts in FORMS.items()}


def module(size):
    """A module of so many bytes, of small definitions: 5,000, as many as it may have, in 262,144 bytes."""
    out, used, turn = ["module Main where\n"], 18, 0
    while True:
        line = f"d{turn:04} x = f x + {turn:04} * g (x - 1) - [x, y, z]\n"
        line = line[:-1] + " " * (52 - len(line)) + "\n"
        if turn == size * 5000 // 262144:
            break
        out.append(line)
        used += len(line)
        turn += 1
    return "".join(out) + " " * (size - used)


def chains(count):
    """So many definitions, each a chain of 100 operators."""
    return "".join(f"d{turn} =" + " a +" * 100 + " b\n" for turn in range(count))


def session(events, inputs):
    return f'{{"cursor":0,"events":[{",".join(events)}],"format":"reactor-session","inputs":[{inputs}],"version":1}}'


def deliveries(count):
    """deliveries"""
    return session([f"[{number * 7919 % 1_000_000_000}]" for number in range(count)], "")


def input_events(count):
    """input events"""
    values = ["()", "({0},{1})", "{0}", r'\"key {1}\"']
    inputs = '["Mouse.clicks","()"],["Mouse.position","(Int,Int)"],["Window.width","Int"],["p","String"]'
    events = [f'[{turn % 4},"{values[turn % 4].format(turn % 1000, turn % 777)}"]' for turn in range(count)]
    return session(events, inputs)
