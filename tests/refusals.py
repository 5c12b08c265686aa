"""Runs of a program in which a request for memory is refused, by the shim of refuse.c."""
import sys

from served import Served


class Player(Served):
    """Runs a program on the same lines again and again."""

    def __init__(self, program, lines, shim, arguments=()):
        super().__init__(program, shim, arguments)
        self.lines = lines

    def run(self, refused):
        """What a run gives where the request of that number is refused (0: none), and whether it came to that."""
        lines, self.lines = self.lines, None
        return super().run(lines, REFUSE=refused)


def requests(program, lines, shim, arguments=()):
    """How many requests for memory a run on the lines makes. Stops where the program fails, or refuses a call, undisturbed."""
    with Player(program, lines, shim, arguments) as player:
        undisturbed, _ = player.run(0)
        if undisturbed.status or b"refused" in undisturbed.out:
            sys.exit(f"{' '.join((program, *arguments))} fails: {undisturbed!s:.1000}")
        few, many = 0, 1
        while player.run(many)[1]:
            few, many = many, 2 * many
        while many - few > 1:
            middle = (few + many) // 2
            few, many = (middle, many) if player.run(middle)[1] else (few, middle)
    return few
