"""The C functions of include/timed_network.h over the compiled Rattle functions: a slice goes as its place and its length, a struct by its place
(tools/unproved). The folder of the header is the only word."""
import re
import subprocess
import sys

header = subprocess.run(
    ["cc", "-E", "-P", "-I" + sys.argv[1], sys.argv[1] + "/timed_network.h"],
    capture_output=True, text=True, check=True).stdout


def wrapped(answer, name, parameters):
    """One function of the header, which calls the compiled one."""
    lines, handed, types = [], [], []
    if answer != "void":
        lines.append(f"{answer} answer;")
        handed.append("&answer")
        types.append("void *")
    at = 0
    while at < len(parameters):
        kind, word = re.match(r"(.*?)(\w+)$", parameters[at]).groups()
        kind = kind.strip()
        at += 1
        if kind.endswith("*") and at < len(parameters) and re.match(r"size_t\s+\w*length", parameters[at]):
            lines.append(f"struct slice slice_{word} = {{{word}, {parameters[at].split()[-1]}}};")
            handed.append(f"&slice_{word}")
            types.append("struct slice *")
            at += 1
        elif kind.endswith("*"):
            handed.append(word)
            types.append("void *")
        elif kind.startswith("timed_network_"):
            handed.append("&" + word)
            types.append("void *")
        else:
            handed.append(word)
            types.append(kind)
    lines.append(f"rattle_{name}({', '.join(handed)});")
    if answer != "void":
        lines.append("return answer;")
    print(f"extern void rattle_{name}({', '.join(types)});")
    print(f"{answer} {name}({', '.join(parameters)}) {{ {' '.join(lines)} }}")


print('#include "timed_network.h"\nstruct slice { const void *place; size_t length; };')
for found in re.finditer(r"(timed_network_\w+|void)\s+(timed_network_\w+)\s*\(([^)]*)\)\s*;", header):
    result, called, words = found.groups()
    wrapped(result, called, [word.strip() for word in words.replace("\n", " ").split(",")])
