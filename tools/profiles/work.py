# Parses the standard library, walks the trees, and puts them into json and back.
import ast, json, os, re, sys
def tree(node, depth=0):
    return [type(node).__name__, [tree(c, depth + 1) for c in ast.iter_child_nodes(node)]]
folder = os.path.dirname(ast.__file__)
total = 0
for name in sorted(os.listdir(folder))[: int(sys.argv[1])]:
    if name.endswith(".py"):
        text = open(os.path.join(folder, name), errors="replace").read()
        total += len(json.loads(json.dumps(tree(ast.parse(text)))))
        total += len(sorted(re.findall(r"\w+\s*=", text), key=lambda w: w[::-1]))
print(total)
