"""The workers: how they look for frames, step by step or all at once. One function a rule; each
answers the text of its line.

Written from docs/SCRIPT.md and docs/internals/MODEL.md alone. Not proved."""

from space import page_of, piece_at, policy_list, resolved, turn_at

WORKERS = 4
WORD = 64


class FrameSearch:
    """What a busy worker is about: its version and fallback list, and the frames met."""

    def __init__(self, version, nodes):
        self.version = version
        self.nodes = nodes
        self.met = set()


class Crew:
    """Workers, the owner of each frame that has one, and the frame that each page keeps."""

    def __init__(self, space):
        self.frames = space.machine.frames
        self.published = space
        self.searches = [None] * WORKERS  # None for an idle worker
        self.owners = {}
        self.kept = {}


def place_cause(space, address, cpu):
    """CPU is a node of the machine, and then the page is mapped."""
    if cpu >= space.machine.nodes:
        return "BadCpu"
    return None if piece_at(space, page_of(address)) else "Unmapped"


def list_of_page(space, task, address, cpu):
    """The fallback list of a mapped page: that of the policy which counts there, at its turn."""
    page = page_of(address)
    piece = piece_at(space, page)
    return policy_list(space, resolved(space, task, piece), turn_at(piece, page), cpu)


def publish(crew, space):
    """`publish`: workers see all commands so far."""
    crew.published = space
    return f"published {space.version}"


# ---- steps


def worker_cause(crew, worker, must_be_busy):
    """Workers are 0 to 3; a worker that begins or gives is idle, one that looks or tries busy."""
    if worker >= WORKERS:
        return "NoSuchWorker"
    if must_be_busy:
        return None if crew.searches[worker] else "Idle"
    return "Busy" if crew.searches[worker] else None


def current_node(crew, search):
    """The first node of the list that has a frame which the worker hasn't met, or None."""
    for node in search.nodes:
        if any((node, frame) not in search.met for frame in range(crew.frames[node])):
            return node
    return None


def goes_on(crew, worker):
    """`still` while there is a current node; else the list is exhausted, and the worker idle."""
    search = crew.searches[worker]
    if current_node(crew, search) is not None:
        return "still"
    crew.searches[worker] = None
    return f"exhausted v{search.version}"


def begin(crew, worker, task, address, cpu):
    """`begin`: the worker takes what is published, and the fallback list; it has met none."""
    space = crew.published
    cause = worker_cause(crew, worker, False) or place_cause(space, address, cpu)
    if cause:
        return f"refused {cause}"
    crew.searches[worker] = FrameSearch(space.version, list_of_page(space, task, address, cpu))
    return goes_on(crew, worker)


def look(crew, worker, word):
    """`look`: each owned frame of a word of the current node is met."""
    cause = worker_cause(crew, worker, True)
    if cause:
        return f"refused {cause}"
    search = crew.searches[worker]
    node = current_node(crew, search)
    if word * WORD >= crew.frames[node]:
        return "refused BadTry"
    for frame in range(word * WORD, (word + 1) * WORD):
        if (node, frame) in crew.owners:
            search.met.add((node, frame))
    return goes_on(crew, worker)


def try_frame(crew, worker, node, frame):
    """`try`: an unmet frame of the current node is won where it is free, else it is met."""
    cause = worker_cause(crew, worker, True)
    if cause:
        return f"refused {cause}"
    search = crew.searches[worker]
    wrong = node != current_node(crew, search) or frame >= crew.frames[node]
    if wrong or (node, frame) in search.met:
        return "refused BadTry"
    if (node, frame) in crew.owners:
        search.met.add((node, frame))
        return goes_on(crew, worker)
    crew.owners[node, frame] = worker
    crew.searches[worker] = None
    return f"won v{search.version} node {node} frame {frame} rank {search.nodes.index(node)}"


def give(crew, worker, node, frame):
    """`give`: an idle worker makes a frame free that it owns."""
    cause = worker_cause(crew, worker, False)
    if not cause and crew.owners.get((node, frame)) != worker:
        cause = "NotOwned"
    if cause:
        return f"refused {cause}"
    del crew.owners[node, frame]
    return "given"


# ---- pages that keep frames


def touch(crew, worker, task, address, cpu):
    """`touch`: a begin, then tries of the lowest unmet frame of the current node; the page keeps
    the frame that is won, or it is given back where the page keeps one already."""
    answer = begin(crew, worker, task, address, cpu)
    while answer == "still":
        search = crew.searches[worker]
        node = current_node(crew, search)
        frame = min(it for it in range(crew.frames[node]) if (node, it) not in search.met)
        answer = try_frame(crew, worker, node, frame)
    if not answer.startswith("won"):
        return answer
    page = page_of(address)
    if page in crew.kept:
        give(crew, worker, node, frame)
        return f"back node {node} frame {frame}"
    crew.kept[page] = (node, frame)
    return answer


def release(crew, worker, address):
    """`release`: the page's frame is given back, and the page keeps none; NotOwned where it keeps
    none; where the worker may not give it, the page keeps it."""
    page = page_of(address)
    if page not in crew.kept:
        return "refused NotOwned"
    answer = give(crew, worker, *crew.kept[page])
    if answer == "given":
        del crew.kept[page]
    return answer


STEPS = {"begin": begin, "look": look, "try": try_frame, "give": give, "touch": touch,
         "release": release}
