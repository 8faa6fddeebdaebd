"""Sessions drawn by chance, for the judge of clients: handlers over few keys, so that many meet."""
import model

NUMBERS = [0, 1, 2, 3, -1, model.MOST, model.LEAST + 1]
SYMBOLS = ["a", "b", "c"]


class Maker:
    """Draws one session. If it is `computing`, each handler has a loop without calls."""

    def __init__(self, draw, computing=False):
        self.draw, self.tables, self.declared, self.computing = draw, {}, 0, computing

    def literal(self):
        """A value: mostly one of few."""
        sort = self.draw.random()
        if sort < 0.1:
            return None
        return self.draw.choice(SYMBOLS if sort < 0.3 else NUMBERS[:3] * 6 + NUMBERS)

    def atom(self, visible):
        """A variable or a literal."""
        if visible and self.draw.random() < 0.7:
            return "variable", self.draw.choice(visible)
        return "literal", self.literal()

    def expression(self, visible, depth=0):
        """An expression of at most three signs."""
        if depth == 2 or self.draw.random() < 0.6:
            return self.atom(visible)
        return (self.draw.choice("+-*"), self.expression(visible, depth + 1),
                self.expression(visible, depth + 1))

    def operation(self, visible):
        """An operation with its arguments."""
        name = self.draw.choice(list(self.tables))
        word, arguments = self.draw.choice(list(model.KINDS[self.tables[name]].items()))
        return "do", word, name, [self.atom(visible) for _ in range(arguments)]

    def right(self, visible):
        if self.draw.random() < 0.85:
            return self.operation(visible)
        return self.expression(visible)

    def fresh(self):
        """A name that no variable of the handler has."""
        self.declared += 1
        return f"v{self.declared}"

    def block(self, visible, depth):
        """A block; what it declares isn't visible behind it."""
        visible, statements = list(visible), []
        for _ in range(self.draw.randint(2, 6)):
            statements.append(self.statement(visible, depth))
        return statements

    def statement(self, visible, depth):
        """One statement; a variable that it declares is visible from then on."""
        sort = self.draw.random()
        if sort < 0.1 and depth < 3:
            return ("if", self.draw.choice(list(model.COMPARES)), self.expression(visible),
                    self.expression(visible), self.block(visible, depth + 1),
                    self.block(visible, depth + 1))
        if sort < 0.2 and depth < 3 and self.declared < 20:
            name, turns = self.fresh(), self.draw.randint(1, 3)
            return "repeat", turns, name, self.block([*visible, name], depth + 1)
        if sort < 0.21:
            return "reply", [self.expression(visible) for _ in range(self.draw.randint(1, 4))]
        if sort < 0.6 and self.declared < 20:
            right, name = self.right(visible), self.fresh()
            visible.append(name)
            return "let", name, right
        if sort < 0.7 and visible:
            return "set", self.draw.choice(visible), self.right(visible)
        return "do", None, self.operation(visible)

    def handler(self):
        """The parameters and the block of a handler, which replies what it knows at its end."""
        self.declared = 0
        parameters = ["x", "y", "z"][:self.draw.randint(0, 3)]
        block = self.block(parameters, 0)
        if self.computing:
            at = self.draw.randint(0, len(block))
            block[at:at] = self.loop()
        known = [statement[1] for statement in block if statement[0] == "let"]
        ends = [("variable", name) for name in (parameters + known)[-4:]] or [("literal", 7)]
        return parameters, [*block, ("reply", ends)]

    def loop(self):
        """A loop that computes for long."""
        name, turn, outer = self.fresh(), self.fresh(), self.fresh()
        turned = ("set", name, ("-", ("variable", turn), ("variable", name)))
        inner = [("repeat", 1000, turn, [turned])]
        return [("let", name, ("literal", 1)), ("repeat", 4, outer, inner)]

    def session(self, clients, most):
        """A session with requests of so many clients, at most so many in all."""
        self.tables = {f"t{i}": self.draw.choice(["map", "map", "set"])
                       for i in range(self.draw.randint(1, 3))}
        handlers = {f"h{i}": self.handler() for i in range(self.draw.randint(1, 5))}
        entries = {(self.draw.choice(list(self.tables)), self.literal())
                   for _ in range(self.draw.choice([0, 0, 3, 6]))}
        opening = [[name, key] + ([self.literal()] if self.tables[name] == "map" else [])
                   for name, key in sorted(entries, key=str)]
        parts = [[] for _ in range(clients)]
        for _ in range(self.draw.randint(1, most)):
            name = self.draw.choice(list(handlers))
            self.draw.choice(parts).append(
                [name, *(self.literal() for _ in handlers[name][0])])
        return model.Session(self.tables, opening, handlers, parts)
