"""How programs are spelled: expressions, commands, whole command files, and the declarations of their tables."""

from values import Num
from world import main_part

SIGNS = {".OR.": 1, ".AND.": 2, "+": 5, "-": 5, "*": 6, "/": 6}
COMPARISON, DENIAL, SIGNED, WHOLE = 4, 3, 7, 8


def key_text(table, index):
    parts = [(table.columns[at].name, upper) for at, upper in table.keys[index]]
    return "+".join(f"UPPER({name})" if upper else name for name, upper in parts)


def declarations(made):
    lines = [f"TABLE {name}" for name in made]
    for name, table in made.items():
        lines += [f"INDEX {index} ON {name} KEY {key_text(table, index)}" for index in table.keys]
    return "\n".join(lines) + "\n"


# ---- expressions

def number_text(a):
    digits = str(a.m).rjust(a.d + 1, "0")
    return digits if a.d == 0 else f"{digits[:-a.d]}.{digits[-a.d:]}"


def literal(value):
    if isinstance(value, bool):
        return ".T." if value else ".F."
    return number_text(value) if isinstance(value, Num) else f'"{value}"'


def level(e):
    if e[0] == "both":
        return SIGNS.get(e[1], COMPARISON)
    if e[0] == "one":
        return DENIAL if e[1] == ".NOT." else SIGNED
    return WHOLE


def text(e, least=0):
    """The shortest spelling: parentheses where an operator is looser than its place allows."""
    word = e[0]
    if word == "is":
        return literal(e[1])
    if word == "name":
        return e[1]
    if word == "alias":
        return f"{e[1]}->{e[2]}"
    if word == "ask":
        return f"{e[1]}()"
    if word == "enclosed":
        return f"({text(e[1])})"
    if word == "call":
        return f"{e[1]}({','.join(text(it) for it in e[2])})"
    own = level(e)
    if word == "one":
        spelling = f"{e[1]} {text(e[2], own)}" if e[1] == ".NOT." else f"{e[1]}{text(e[2], WHOLE)}"
    else:
        left = own + 1 if own == COMPARISON else own
        spelling = f"{text(e[2], left)} {e[1]} {text(e[3], own + 1)}"
    return f"({spelling})" if own < least else spelling


# ---- commands

def block(commands, lines):
    for command in commands:
        globals()[f"put_{command[0]}"](lines, *command[1:])
    return lines


def put_assign(lines, name, e):
    lines.append(f"{name} = {text(e)}")


def put_store(lines, e, names):
    lines.append(f"STORE {text(e)} TO {', '.join(names)}")


def put_show(lines, new, given):
    lines.append(f"{'?' if new else '??'} {', '.join(text(e) for e in given)}".rstrip())


def put_clear(lines):
    lines.append("CLEAR")


def put_say(lines, row, column, e, name):
    lines.append(f"@ {text(row)},{text(column)}" + (f" SAY {text(e)}" if e else "") + (f" GET {name}" if name else ""))


def put_read(lines):
    lines.append("READ")


def put_accept(lines, prompt, name):
    lines.append("ACCEPT" + (f" {text(prompt)}" if prompt else "") + f" TO {name}")


def put_wait(lines, prompt, name):
    lines.append("WAIT" + (f" {text(prompt)}" if prompt else "") + (f" TO {name}" if name else ""))


def put_if(lines, condition, then, otherwise):
    lines.append(f"IF {text(condition)}")
    block(then, lines)
    if otherwise is not None:
        lines.append("ELSE")
        block(otherwise, lines)
    lines.append("ENDIF")


def put_case(lines, cases, otherwise):
    lines.append("DO CASE")
    for condition, body in cases:
        lines.append(f"CASE {text(condition)}")
        block(body, lines)
    if otherwise is not None:
        lines.append("OTHERWISE")
        block(otherwise, lines)
    lines.append("ENDCASE")


def put_while(lines, condition, body):
    lines.append(f"DO WHILE {text(condition)}")
    block(body, lines)
    lines.append("ENDDO")


def put_scan(lines, condition, body):
    lines.append("SCAN" if condition is None else f"SCAN FOR {text(condition)}")
    block(body, lines)
    lines.append("ENDSCAN")


def put_leave(lines, word):
    lines.append(word)


def put_unreached(lines, line):
    lines.append(line)


def put_gone(lines, names):
    """A note for the interpreter alone."""


def put_do(lines, name, given):
    lines.append(f"DO {name}" + (f" WITH {', '.join(text(e) for e in given)}" if given else ""))


def put_private(lines, names):
    lines.append(f"PRIVATE {', '.join(names)}")


def put_release(lines, names):
    lines.append(f"RELEASE {', '.join(names)}")


def put_set(lines, name, on):
    lines.append(f"SET {name.upper()} {'ON' if on else 'OFF'}")


def put_use(lines, name, indexes):
    lines.append(f"USE {name}" + (f" INDEX {', '.join(indexes)}" if indexes else ""))


def put_close(lines):
    lines.append("USE")


def put_close_all(lines, word):
    lines.append(f"CLOSE {word}")


def put_select(lines, word):
    lines.append(f"SELECT {word}")


def put_order(lines, number):
    lines.append(f"SET ORDER TO {number}")


def put_filter(lines, e):
    lines.append("SET FILTER TO" + (f" {text(e)}" if e else ""))


def put_go(lines, where):
    lines.append(f"GO {where if where in ('TOP', 'BOTTOM') else text(where)}")


def put_skip(lines, e):
    lines.append("SKIP" + (f" {text(e)}" if e else ""))


def put_seek(lines, e):
    lines.append(f"SEEK {text(e)}")


def put_append(lines):
    lines.append("APPEND BLANK")


def put_replace(lines, given):
    lines.append("REPLACE " + ", ".join(f"{name} WITH {text(e)}" for name, e in given))


def put_mark(lines, marked):
    lines.append("DELETE" if marked else "RECALL")


def put_pack(lines):
    lines.append("PACK")


def put_zap(lines):
    lines.append("ZAP")


def put_reindex(lines):
    lines.append("REINDEX")


def put_index(lines, index, key):
    lines.append(f"INDEX ON {key} TO {index}")


# ---- files

def source(file):
    """The text of a command file: its main part, which needs no first line, and its procedures."""
    lines = []
    for part in file:
        lines += [] if part is main_part(file) else [f"PROCEDURE {part.name}"]
        lines += [f"PARAMETERS {', '.join(part.parameters)}"] if part.parameters else []
        block(part.commands, lines)
    return "\n".join(lines) + "\n"
