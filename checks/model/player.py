"""The player of a partition: what is played, the jobs for the decoder, and fades from one song into the next."""
from dataclasses import dataclass

from library import RATE, milliseconds_of
from order import Order

LARGEST_BLOCK = 1024


class LimitReached(Exception):
    """A number would exceed its limit, so the whole event is refused."""


@dataclass
class Job:
    """Frames that the decoder was asked for, and, if they are part of a fade, the song that is mixed in."""
    number: int
    id: int
    start: int
    count: int
    partner: int = None
    index: int = 0
    length: int = 0
    open: bool = True


class Player:
    def __init__(self, queue, greatest, seed):
        self.queue = queue
        self.greatest = greatest
        self.order = Order(seed)
        self.volume = 100
        self.fade_seconds = 0
        self.state = 'stop'
        self.current = None
        self.at = 0
        self.error = None
        self.starts = self.cuts = self.jobs = 0
        self.frames_played = 0
        self.job = None
        self.partner = None
        self.fade_length = 0
        self.fade_given_up = False

    # Numbers that grow, up to their limit.

    def one_more(self, number):
        if number >= self.greatest:
            raise LimitReached()
        return number + 1

    def cut(self):
        self.cuts = self.one_more(self.cuts)

    # What is current.

    @property
    def entry(self):
        return None if self.current is None else self.queue.entry(self.current)

    @property
    def elapsed(self):
        return milliseconds_of(self.at)

    def peek(self):
        """The entry that will start at the end of the current song, if no new round is needed for that."""
        order, place = self.order, self.queue.place_of(self.current)
        if place is None or order.single == 'oneshot':
            return None
        consumed = order.consume != '0'
        if order.single == '1':
            return self.entry if order.repeat and not consumed else None
        entries = self.queue.entries
        if consumed:
            return order.foreseen(entries[:place] + entries[place + 1:], place)
        return order.foreseen(entries, place + 1)

    def is_foreseen(self, entry_id):
        following = self.peek()
        return following is not None and following.id == entry_id

    # Starts and stops.

    def forget_work(self):
        """Forgets what the decoder was asked for, and ends a fade."""
        self.job = None
        self.partner, self.fade_length = None, 0

    def start(self, entry, at=0):
        self.starts = self.one_more(self.starts)
        self.forget_work()
        self.fade_given_up = False
        self.current, self.at, self.error = entry.id, at, None
        self.order.started(entry.id)

    def start_by_hand(self, entry, at=0):
        self.start(entry, at)
        self.cut()

    def rest(self, keep=True):
        """Stops; the song stays the current one if it is still there."""
        self.state = 'stop'
        self.forget_work()
        if not keep or self.entry is None:
            self.current = None

    def take_out(self, start, end):
        """Removes entries from the queue, and also from the round."""
        self.order.left(self.queue.remove(start, end))

    def consume(self):
        """Removes the current song if the mode says so, and returns whether it did."""
        if self.order.consume == '0':
            return False
        place = self.queue.place_of(self.current)
        self.take_out(place, place + 1)
        if self.order.consume == 'oneshot':
            self.order.consume = '0'
        return True

    def end_song(self, next_at=0):
        """The current song has ended by itself; the next one starts at this frame."""
        place, entry = self.queue.place_of(self.current), self.entry
        consumed = self.consume()
        if self.order.single == 'oneshot':
            self.order.single = '0'
            self.rest()
        elif self.order.single == '1':
            if self.order.repeat and not consumed:
                self.start(entry)
            else:
                self.rest()
        else:
            following = self.order.following(self.queue.entries, place if consumed else place + 1)
            if following is None:
                self.rest(keep=False)
            else:
                self.start(following, next_at)

    # Commands.

    def play(self, entry=None):
        if entry is None and self.state != 'stop':
            self.state = 'play'
            return
        if entry is None:
            if not self.queue.entries:
                return
            entry = self.entry or self.order.first(self.queue.entries)
        self.start_by_hand(entry)
        self.state = 'play'

    def pause(self, paused=None):
        if self.state != 'stop':
            wanted = self.state == 'play' if paused is None else paused
            self.state = 'pause' if wanted else 'play'

    def stop(self):
        if self.state != 'stop':
            self.cut()
            self.rest()

    def next(self):
        place = self.queue.place_of(self.current)
        consumed = self.consume()
        following = self.order.following(self.queue.entries, place if consumed else place + 1)
        if following is None:
            self.cut()
            self.rest(keep=False)
        else:
            self.start_by_hand(following)
            self.state = 'play'

    def previous(self):
        entries, order = self.queue.entries, self.order
        place = self.queue.place_of(self.current)
        if order.random:
            order.leave_round(self.current)
            target = self.queue.entry(order.played[-1]) if order.played else self.entry
        elif place > 0:
            target = entries[place - 1]
        else:
            target = entries[-1] if order.repeat else entries[0]
        self.start_by_hand(target)
        self.state = 'play'

    def seek(self, entry, milliseconds):
        at = min(max(milliseconds, 0) * RATE // 1000, entry.song.frames)
        if entry.id == self.current:
            self.cut()
            self.forget_work()
            self.fade_given_up = False
            self.at = at
        else:
            self.start_by_hand(entry, at)
        if self.state == 'stop':
            self.state = 'play'

    def delete(self, start, end):
        """Deletes entries; if the current song is one of them, the one after them starts."""
        was_current = any(entry.id == self.current for entry in self.queue.entries[start:end])
        self.take_out(start, end)
        if not was_current:
            return
        if self.state == 'stop':
            self.current = None
            return
        following = self.order.following(self.queue.entries, start)
        if following is None:
            self.cut()
            self.rest(keep=False)
        else:
            self.start_by_hand(following)

    # Steps of the decoder.

    def want(self):
        """The next job, or None."""
        if self.state != 'play':
            return None
        length = self.entry.song.frames
        if self.at >= length:
            self.end_song()
            return None
        if self.partner is not None and not self.is_foreseen(self.partner):
            self.give_up_fade()
        count = min(LARGEST_BLOCK, length - self.at)
        if self.partner is None:
            count = min(count, self.frames_before_fade(length))
        self.jobs = self.one_more(self.jobs)
        self.job = Job(self.jobs, self.current, self.at, count)
        if self.partner is not None:
            self.job.partner, self.job.length = self.partner, self.fade_length
            self.job.index = self.at - (length - self.fade_length)
        return self.job

    def frames_before_fade(self, length):
        """How many frames are left before a fade begins. When the fade is reached, its partner and its length are fixed."""
        partner = self.peek()
        if not self.fade_seconds or self.fade_given_up or partner is None or partner.id == self.current:
            return length
        longest = min(RATE * self.fade_seconds, partner.song.frames)
        begin = length - min(longest, length)
        if self.at < begin:
            return begin - self.at
        self.partner, self.fade_length = partner.id, min(longest, length - self.at)
        return length

    def give_up_fade(self):
        self.forget_work()
        self.fade_given_up = True

    def open_job(self, number):
        """The job with this number, if its frames are still wanted."""
        return self.job if self.job and self.job.open and self.job.number == number else None

    def have(self, number, frames):
        """Takes the frames of a job, and returns the cut and the volume for them; None if they are no longer wanted."""
        job = self.open_job(number)
        if job is None or frames > job.count:
            return None
        if job.partner is not None and not self.is_foreseen(job.partner):
            self.give_up_fade()
            return None
        job.open = False
        self.at += frames
        self.frames_played += frames
        fed = self.cuts, self.volume
        if frames < job.count or self.at >= self.entry.song.frames:
            self.end_song(0 if job.partner is None else job.index + frames)
        return fed

    def failed(self, number, partner):
        """The song of a job cannot be decoded, or, if `partner`, the song that it fades into."""
        job = self.open_job(number)
        if job is None:
            return
        if not partner:
            error = 'Failed to decode ' + self.entry.song.uri
            self.stop()
            self.error = error
        elif job.partner is not None:
            self.give_up_fade()
