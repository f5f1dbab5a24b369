"""The models of dualizing, some of whose variables have other names."""

from dualizing.models import Models as PlainModels

# That of a slack, and one that is escaped.
NAMES = ("~{}", "x {}")


class Models(PlainModels):
    """The models of a seed, one after another."""

    def next_text(self):
        text = super().next_text()
        for place in range(1, 5):
            if self.random.random() < 0.2:
                text = text.replace(f'"x{place}"', f'"{self.random.choice(NAMES).format(place)}"')
        return text
