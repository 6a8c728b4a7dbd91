"""Many stores as one: frames go over a broker into other stores, and answers are over many of them.

**Sending.** The frame of an event is written to the spool, `STORE.spool`, before the store has the event,
and counts where it has it: a death between the two loses nothing, and what had no reply can be sent again.
A frame stays until a follower has told that it has the event, or with `--copies 2` two of them. Where the
spool is full its oldest frames go: the file `needed` in it, and standard error, then say of which streams a
follower needs a copy of the store, and from which event on. The store is the sender's alone: an event that
a plain run adds has no frame. `drop` isn't taken, since no follower would do it. At the end of the input
the sender waits until followers have all, and ends with 1 where they don't.

**Following.** A delivery is acknowledged after an `ok` or `old` to each of its frames. `--queue stream` is
a replicated log that stays: many followers read it, each from its own place, and are replicas. After a gap
a follower reads it again from the event that is missing; where that doesn't help it asks the sender.
`--queue quorum` is a queue of one follower's, emptied as it goes; what can't be taken goes to the queue
`NAME.dead`. A queue that stands is taken as it is. Where neither has the frames, the log and `/healthz` say
from which event of which stream a copy is needed: begin from a copy of the file, while no run goes on.
`STORE.position` says where in the log a follower is: copy it too. Without it the log is read from its
begin, and what is there already is `old`.

**Names.** What `STORE.names.json` at the edge says of a stream goes with each message of its frames, and so
with its next event after a change. A follower has it in a names file of its own. A long name belongs to one
stream: where another one has it, the stream goes on by its short name, and `names_refused` of `/healthz`
says so. A name that takes more than 3,500 bytes with its labels isn't carried.

**Asking a follower.** It answers from a copy of its file, made where no frame is under way, when somebody
asks and the last one is older than `--fresh`. `Summarystore-Copied` of each answer is the time of its copy.
`Summarystore-As-Of` is the last moment at which the log was known to be drained, by a mark that the
follower puts into it and reads again; 0 where none is known. Cut off from its broker, `/healthz` is 503.

**Shards.** With `--shards 4` at all senders and followers the broker deals streams out by the hash of their
names, for which `rabbitmq-plugins enable rabbitmq_consistent_hash_exchange` is needed; `--shard K` names
the follower's. Another number is another fleet. One that has become too large is split: end a follower of
it by SIGTERM, copy its store, its `.position` and its `.names.json` to where the new shard is to be, and
start both, with `--part 0/2` and `--part 1/2`. Each drops the streams that aren't of its part.

**What is lost** where something ends: nothing that had an `ok`, but that an edge's disk which is lost takes
the frames that no follower has. Name several nodes of the broker: senders and followers go on with the next
one, also where nothing comes for a minute. Where all are gone the spool waits.

**The gateway.** A sum of intervals holds the sum of the truths. Of a least value `lo` is the least of all,
and `hi` the least of the streams that surely have a value, or the greatest of all where none surely has. A
mean is the sum over the count, between the least and the greatest, of one moment. Rows of a series are the
same spans for all streams, so it needs `from`. Where a shard doesn't answer, `partial` is true, `missing`
names it, `lo`, `hi` and `mid` are null, and what the others say stands apart as `answered`. Where none
answers, 503 is the status. `[asking]` of its file bounds how long a replica may take (`seconds`, 5), how
many questions go to shards at once (`together`, 64), how long one that didn't answer is asked last
(`rest_seconds`, 10), how often names are asked for (`look_seconds`, 10), from when on an answer is behind
(`behind_seconds`, 60), and names the file of the token that shards want (`token_file`). `without` of a
shard has patterns of names that aren't its own any more.
"""
