"""Which mutants of a crate are planted together."""
from plant import plant


# So many mutants are planted together at most. More would save the reading of a crate, and be the end of a run on several processors.
MOST = 16


def fits_in(edit, others, texts):
    """Whether an edit can be planted beside others: no function and no cycle of calls is touched twice, and its lines still stand once."""
    if len(others) == MOST or any(edit.groups & it.groups for it in others):
        return False
    tried = dict(texts)
    if plant(edit, tried):
        return False
    texts.update(tried)
    return True


def rounds_of(edits, texts):
    """Groups the edits into as few rounds as the most edits of one function ask for, or little more. One that is no program stands alone."""
    alone = [[it] for it in edits if it.error]
    rounds = []
    for edit in sorted((it for it in edits if not it.error), key=lambda it: -len(it.groups)):
        for others, planted in rounds:
            if fits_in(edit, others, planted):
                others.append(edit)
                break
        else:
            planted = dict(texts)
            plant(edit, planted)
            rounds.append(([edit], planted))
    return [others for others, _ in rounds] + alone
