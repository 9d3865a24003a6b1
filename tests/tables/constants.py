"""Constants as the sources write them down, worked out: of Rattle and Rust, of the model, of C, of Python."""
import ast
import re

from data import ROOT, Fault

CONSTANT = re.compile(r"^(?:pub(?:\(crate\))? )?const (\w+): \w+ = ([^;]+);", re.MULTILINE)
# A function of one number whose body is one sum.
FUNCTION = re.compile(r"^(?:pub(?:\(crate\))? )?const fn (\w+)\((\w+): \w+\) -> \w+ {\n([^;{}]+)\n}", re.MULTILINE)
# One name of another crate, or several in braces.
IMPORT = re.compile(r"^use (\w+)::(?:(\w+)|{([^{}]*)});", re.MULTILINE)
DEFINE = re.compile(r"^#define (\w+) (\d+)$", re.MULTILINE)
SIGNS = {ast.Add: lambda a, b: a + b, ast.Sub: lambda a, b: a - b, ast.Mult: lambda a, b: a * b}


def text_of(path):
    return (ROOT / path).read_text(encoding="utf-8")


def worked_out(text, value, called=None):
    """A sum of numbers and names, in one line or more; `value` gives a name's number, and `called` that of a function
    with a number as its argument."""
    def walk(node):
        if isinstance(node, ast.Constant) and isinstance(node.value, int):
            return node.value
        if isinstance(node, ast.Name):
            return value(node.id)
        if isinstance(node, ast.BinOp) and type(node.op) in SIGNS:
            return SIGNS[type(node.op)](walk(node.left), walk(node.right))
        if called and isinstance(node, ast.Call) and isinstance(node.func, ast.Name) and len(node.args) == 1:
            return called(node.func.id, walk(node.args[0]))
        raise Fault(f"cannot be worked out: {text}")
    return walk(ast.parse(re.sub(r" as \w+", "", " ".join(text.split())), mode="eval").body)


def of_source(path, name):
    """A constant of a Rattle or Rust file; what it imports stands in crates/NAME/src/lib.rt."""
    text = text_of(path)
    made = dict(CONSTANT.findall(text))
    imported = {constant: crate for crate, one, several in IMPORT.findall(text)
                for constant in re.findall(r"\w+", one or several)}
    if name in imported:
        return of_source(f"crates/{imported[name]}/src/lib.rt", name)
    if name not in made:
        raise Fault(f"{path} has no constant {name}")
    functions = {function: (parameter, body) for function, parameter, body in FUNCTION.findall(text)}

    def called(function, number):
        if function not in functions:
            raise Fault(f"{path} has no function {function} that is a sum")
        parameter, body = functions[function]
        return worked_out(body, lambda other: number if other == parameter else of_source(path, other), called)

    return worked_out(made[name], lambda other: of_source(path, other), called)


def of_model(path, name):
    """A constant of the model, which is a definition that is a number."""
    found = re.findall(rf"^{name} = (\d+)$", text_of(path), re.MULTILINE)
    if len(found) != 1:
        raise Fault(f"{path} does not define {name} once, as a number")
    return int(found[0])


def of_header(path, name):
    found = [int(number) for defined, number in DEFINE.findall(text_of(path)) if defined == name]
    if len(found) != 1:
        raise Fault(f"{path} does not define {name} once, as a number")
    return found[0]


def of_python(path, name):
    """A number that a Python file gives to a name at its top, alone or beside others."""
    for node in ast.parse(text_of(path)).body:
        if not isinstance(node, ast.Assign):
            continue
        target = node.targets[0]
        pairs = zip(target.elts, getattr(node.value, "elts", ())) if isinstance(target, ast.Tuple) else [
            (target, node.value)]
        for left, right in pairs:
            if isinstance(left, ast.Name) and left.id == name and isinstance(right, ast.Constant):
                return right.value
    raise Fault(f"{path} gives no number to {name}")
