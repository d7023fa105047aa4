# Stands in for the kit's rtlib. Not proved.
class Crate:
    name, of_kit = "numaplan", ["std"]

    def __init__(self, folder, root, known):
        pass

    def below(self):
        return []

    def sources_below(self):
        return ["--lib", "low:core=low/src/lib.rt"]


def root_above(folder):
    return folder


def kit_sources(names):
    return ["--lib", *names]
