#!/usr/bin/env python3
"""slips.py: how much the cases see. Changes one place of the model at a time, a comparison, a number, a sign or a test, and looks whether a call or a pair then
has another answer. Prints each slip that no case sees: such a slip changes no answer at all, or there is a case to add. No library is needed. Takes minutes."""
import ast
import copy
import itertools
import random
import resource
import signal

import cases
import chain
import hand
import held
import index
import lists
import pairs
import plans
import walk

MODULES = {"walk": walk, "chain": chain, "index": index, "plans": plans, "lists": lists}
OTHER = {ast.Lt: (ast.LtE, ast.GtE), ast.LtE: (ast.Lt, ast.Gt), ast.Gt: (ast.GtE, ast.LtE), ast.GtE: (ast.Gt, ast.Lt), ast.Eq: (ast.NotEq,),
         ast.NotEq: (ast.Eq,), ast.In: (ast.NotIn,), ast.NotIn: (ast.In,), ast.Add: (ast.Sub,), ast.Sub: (ast.Add,)}


def late(*_):
    raise TimeoutError


def slips(node):
    """The ways to change a node: what each puts into a copy of it."""
    if isinstance(node, ast.Compare):
        for i, op in enumerate(node.ops):
            for other in OTHER.get(type(op), ()):
                yield lambda n, i=i, other=other: n.ops.__setitem__(i, other())
    elif isinstance(node, ast.BinOp) and type(node.op) in OTHER:
        yield lambda n: setattr(n, "op", OTHER[type(n.op)][0]())
    elif isinstance(node, ast.Constant) and type(node.value) is int:
        for by in (1, -1):
            yield lambda n, by=by: setattr(n, "value", n.value + by)
    elif isinstance(node, (ast.If, ast.IfExp)):
        for value in (True, False):
            yield lambda n, value=value: setattr(n, "test", ast.Constant(value))


def wrong_models(name):
    """Each slip of a module's functions: what it is, the function, and its code as it then stands."""
    with open(f"tests/model/{name}.py", encoding="utf-8") as file:
        text = file.read()
    for function in (n for n in ast.parse(text).body if isinstance(n, ast.FunctionDef)):
        for i, node in enumerate(ast.walk(function)):
            for slip in slips(node):
                changed, scope = copy.deepcopy(function), {}
                at = list(ast.walk(changed))[i]
                slip(at)
                what = f"{name}.py {node.lineno}: {text.split(chr(10))[node.lineno - 1].strip()}: `{ast.unparse(node)[:40]}` as `{ast.unparse(at)[:40]}`"
                exec(compile(ast.fix_missing_locations(ast.Module([changed], [])), name, "exec"), scope)  # pylint: disable=exec-used
                yield what.replace("\n", " "), getattr(MODULES[name], function.name), scope[function.name].__code__


def seen(answers):
    """Whether some case has another answer than it had; an error and a loop without end count as one."""
    for model, case, want in answers:
        signal.setitimer(signal.ITIMER_VIRTUAL, 2)
        try:
            if model(case) != want:
                return True
        except Exception:  # pylint: disable=broad-except
            return True
        finally:
            signal.setitimer(signal.ITIMER_VIRTUAL, 0)
    return False


def model_of_pair(files):
    return lists.compared(*files)[:2]


def main():
    resource.setrlimit(resource.RLIMIT_AS, (2 << 30, 2 << 30))
    signal.signal(signal.SIGVTALRM, late)
    rnd = random.Random(1)
    asked = [(held.expected, r) for r in hand.by_hand(True) if r[5] < 65536] + [(model_of_pair, p) for p in pairs.by_hand()]
    for _ in range(4):
        asked += [(held.expected, r) for r in itertools.islice(cases.by_chance(rnd, cases.Pool(rnd)), 4000)]
        asked += [(model_of_pair, p) for p in itertools.islice(pairs.by_chance(rnd, cases.Pool(rnd)), 500)]
    rnd.shuffle(asked)
    answers, tried, unseen = [(model, case, model(case)) for model, case in asked], 0, 0
    for what, function, code in itertools.chain.from_iterable(map(wrong_models, MODULES)):
        right, function.__code__ = function.__code__, code
        tried += 1
        if not seen(answers):
            unseen += 1
            print(what, flush=True)
        function.__code__ = right
    print(f"slips: {tried:,} tried on {len(answers):,} cases, {tried - unseen:,} seen")


if __name__ == "__main__":
    main()
