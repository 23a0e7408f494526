"""What a file answers about its movie: its tracks in their order, and the samples of each. `answer` computes it by
readers/samples.py, and movies.py has files with answers that were worked out by hand."""

from typing import List, NamedTuple, Optional, Union

from tests.readers.samples import Bad, File, table_steps, table_time


class Problem(NamedTuple):
    """Why a value can't be read. If the box `code` at `position` has a fault, there is no text: the codec has it. Other
    texts are those of readers/samples.py."""
    text: Optional[str]
    code: str = ""
    position: int = 0


class Sample(NamedTuple):
    offset: int
    size: int
    time: int
    duration: int
    shift: int = 0
    is_sync: bool = True
    description: int = 1


class Samples(NamedTuple):
    """Samples, and the problem because of which there are no more."""
    listed: List[Sample]
    problem: Optional[Problem] = None


class Track(NamedTuple):
    """A track. The first track of a track_ID has the fragments. They are None if the tables have a problem, since their
    times begin where the samples of the tables end."""
    position: int
    track_id: Union[int, Problem]
    handler: Union[bytes, Problem]
    timescale: Union[int, Problem]
    tables: Samples
    fragments: Optional[Samples] = Samples([])


class Traf(NamedTuple):
    """A `traf`: the position of its `moof`, its track_ID if its `tfhd` can be read, and why it is no fragment."""
    moof: int
    track_id: Optional[int]
    problem: Optional[Problem] = None


class Answer(NamedTuple):
    tracks: List[Track]
    trafs: List[Traf] = []
    has_moov: bool = True

    def first(self, track_id):
        """Returns the first track with a track_ID, or None."""
        return next((it for it in self.tracks if it.track_id == track_id), None)

    def ids(self):
        """Returns the track_IDs of the tracks and fragments, and two others."""
        found = {it.track_id for it in (*self.tracks, *self.trafs)}
        return sorted({0, 1} | {it for it in found if isinstance(it, int)})


def problem_of(bad):
    text, *box = bad.args
    return Problem(text) if text else Problem(None, box[0][0].decode("latin-1"), box[0][1])


def value_of(found):
    return problem_of(found) if isinstance(found, Bad) else found


def listed(steps):
    """Returns the samples that `steps` yields."""
    found = []
    try:
        for step in steps:
            found.append(Sample(*step))
    except Bad as bad:
        return Samples(found, problem_of(bad))
    return Samples(found)


def fragment_steps(file, track_id, time):
    """Yields the samples of the fragments of a track. The first one begins at `time`, unless it has a time."""
    for moof, traf, header, base in file.fragments.get(track_id, []):
        _, time = yield from file.steps(track_id, traf, header, base, time, f"moof at {moof[1]}: ")


def trafs_of(file):
    """Returns each `traf` of a file, in order."""
    found = [(traf[1], Traf(moof[1], None, problem_of(bad))) for moof, traf, bad in file.lost]
    for track_id, trafs in file.fragments.items():
        for moof, traf, _, base in trafs:
            problem = None
            try:
                file.fragment_of(track_id, traf, base, f"moof at {moof[1]}: ")
            except Bad as bad:
                problem = problem_of(bad)
            found.append((traf[1], Traf(moof[1], track_id, problem)))
    return [it for _, it in sorted(found, key=lambda pair: pair[0])]


def answer(data):
    """Returns the answer of the file `data`."""
    file, tracks, met = File(data), [], set()
    for trak in file.tracks:
        track_id, handler, timescale = map(value_of, file.headers(trak))
        fragments = Samples([])
        try:
            tables = file.tables(trak)
            samples = listed(table_steps(tables))
            if track_id not in met:
                fragments = listed(fragment_steps(file, track_id, table_time(tables)))
        except Bad as bad:
            samples, fragments = Samples([], problem_of(bad)), None
        met.add(track_id)
        tracks.append(Track(trak[1], track_id, handler, timescale, samples, fragments))
    return Answer(tracks, trafs_of(file), file.moov is not None)
