"""The places of a Python file where a small mistake can be made, by `ast`. A place is a kind, the offsets of a text, and another text."""
import ast

TURNED = {ast.Lt: '<=', ast.LtE: '<', ast.Gt: '>=', ast.GtE: '>', ast.Eq: '!=', ast.NotEq: '==', ast.Is: 'is not', ast.IsNot: 'is',
          ast.In: 'not in', ast.NotIn: 'in'}
EMPTIED = {ast.List: '[]', ast.ListComp: '[]', ast.Dict: '{}', ast.DictComp: '{}', ast.JoinedStr: "''", ast.Tuple: '()'}
DROPPED = (ast.Assign, ast.AugAssign, ast.Raise, ast.Continue, ast.Break)


class Places(ast.NodeVisitor):
    """Collects the places of a tree."""

    def __init__(self, text):
        self.text, self.found = text, []
        self.starts = [0]
        for line in text.splitlines(keepends=True):
            self.starts.append(self.starts[-1] + len(line))
        self.lines = text.splitlines()

    def at(self, line, column):
        return self.starts[line - 1] + len(self.lines[line - 1].encode()[:column].decode())

    def span(self, node):
        return self.at(node.lineno, node.col_offset), self.at(node.end_lineno, node.end_col_offset)

    def source(self, node):
        start, end = self.span(node)
        return self.text[start:end]

    def add(self, kind, node, new):
        start, end = self.span(node)
        self.found.append({'kind': kind, 'start': start, 'end': end, 'new': new})

    def visit_Compare(self, node):
        if len(node.ops) == 1 and type(node.ops[0]) in TURNED:
            self.add('comparison', node, f'({self.source(node.left)} {TURNED[type(node.ops[0])]} {self.source(node.comparators[0])})')
        self.generic_visit(node)

    def negated(self, node):
        self.add('condition', node, f'(not ({self.source(node)}))')

    def visit_If(self, node):
        self.negated(node.test)
        self.generic_visit(node)

    def visit_While(self, node):
        if not isinstance(node.test, ast.Constant):
            self.negated(node.test)
        self.generic_visit(node)

    visit_IfExp = visit_While

    def visit_comprehension(self, node):
        for test in node.ifs:
            self.negated(test)
        self.generic_visit(node)

    def visit_BoolOp(self, node):
        word = ' or ' if isinstance(node.op, ast.And) else ' and '
        self.add('and and or', node, '(' + word.join(f'({self.source(it)})' for it in node.values) + ')')
        self.generic_visit(node)

    def visit_Constant(self, node):
        if isinstance(node.value, int) and not isinstance(node.value, bool):
            self.add('bound', node, str(node.value + 1))
        elif isinstance(node.value, str) and len(node.value) > 1 and self.source(node)[0] in '\'"':
            self.add('text', node, repr(node.value[1:]))

    def visit_JoinedStr(self, node):
        return

    def visit_Call(self, node):
        if len(node.args) == 2 and not node.keywords and not any(isinstance(it, ast.Starred) for it in node.args):
            one, other = node.args
            self.found.append({'kind': 'arguments', 'start': self.span(one)[0], 'end': self.span(other)[1],
                               'new': f'{self.source(other)}, {self.source(one)}'})
        self.generic_visit(node)

    def visit_Return(self, node):
        if node.value is not None and not (isinstance(node.value, ast.Constant) and node.value.value is None):
            empty = EMPTIED.get(type(node.value), 'None')
            if self.source(node.value) != empty:
                self.add('return', node, f'return {empty}')
        self.generic_visit(node)

    def visit_AnnAssign(self, node):
        if node.value is not None:
            self.visit(node.value)

    def visit_Expr(self, node):
        if isinstance(node.value, ast.Constant):
            return  # what tells a reader
        self.add('statement', node, 'pass')
        self.generic_visit(node)

    def visit_FunctionDef(self, node):
        for part in (*node.decorator_list, *node.args.defaults, *(it for it in node.args.kw_defaults if it is not None), *node.body):
            self.visit(part)

    def visit_arg(self, node):
        return

    def generic_visit(self, node):
        if isinstance(node, DROPPED) and not (isinstance(node, ast.Assign) and self.is_of_module(node)):
            self.add('statement', node, 'pass')
        super().generic_visit(node)

    def is_of_module(self, node):
        return node.col_offset == 0


def sites(text):
    """The places of a text, in order."""
    places = Places(text)
    places.visit(ast.parse(text))
    return sorted(places.found, key=lambda it: (it['start'], it['end'], it['new']))
