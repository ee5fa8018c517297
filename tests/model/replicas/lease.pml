/* The lease: which state answers who asks, and when a change is acknowledged (ACK=all).

   Three replicas, three entries, clocks of equal speed. A lease lasts LEASE ticks from the moment at which the daemon
   began to read the head, and HAProxy compares it with the clock for each message. Each step may be put off for any
   number of ticks: so a daemon, a machine, or etcd's answer may stand still, and a machine that is cut off is one whose
   steps with etcd don't come. An append is one step, at any moment (append.pml); a replica's store is at its position
   or beyond it (apply.pml).

   What is promised is promised of each entry for itself: one is watched, any of the three. The model is more lenient
   than the daemon where that saves states: a registration, which etcd keeps for two leases, may be gone as soon as the
   lease is over that was had with it; what a replica has told is where it is; and the appender counts the lease from the
   append, not from etcd's answer. A reading that can't give more than is there is left out.

   It matches deploy/replica/core.py, Lease and Acknowledging. Wrong models: FROM_END (the lease from the reading's end),
   NO_WAIT (the appender waits for nobody), KEPT_LEASE (a store that is made anew of a copy keeps its lease). SHOWS_..:
   what has to be found. */

#define REPLICAS 3
#define ENTRIES 3
#define LEASE 2

byte head;                              /* of the log */
byte watched;                           /* the entry that is watched; 0: none yet */
byte age;                               /* how many ticks ago that was appended, at most LEASE */
bit has[REPLICAS];                      /* its appender knows: that replica has it, or is gone */
bit is_acknowledged;

mtype = { none, begun, read };
mtype reading[REPLICAS] = none;         /* of the head */
byte since[REPLICAS];                   /* how many ticks ago the reading began */
byte found[REPLICAS];                   /* the head that was read; 0 once the replica is there */
byte lease[REPLICAS];                   /* for how many ticks HAProxy lets it answer */
byte position[REPLICAS];

#define LEFT(r) (LEASE - since[r])
/* etcd may have let its registration go, or it has ended in good order */
#define MAY_BE_GONE(r) (lease[r] == 0 && reading[r] != read)

inline end_reading(r) { reading[r] = none; since[r] = 0; found[r] = 0 }

inline catch_up(r) {
    if :: position[r] >= found[r] -> found[r] = 0 :: else fi
}

proctype Replica(byte r) {
end:
    do
    :: d_step { reading[r] == none && lease[r] < LEASE -> reading[r] = begun }
    /* etcd renews the registration, and then reads the head by its quorum */
    :: d_step { reading[r] == begun -> reading[r] = read; found[r] = head; catch_up(r) }
    /* once the replica is there, it may answer */
    :: d_step { reading[r] == read && found[r] == 0 ->
#ifdef FROM_END
        lease[r] = LEASE;
#else
        if :: LEFT(r) > lease[r] -> lease[r] = LEFT(r) :: else fi;
#endif
        end_reading(r) }
    /* no answer has come, or the daemon was killed */
    :: d_step { reading[r] != none -> end_reading(r) }
    :: d_step { position[r] < head -> position[r]++; catch_up(r) }
    /* it ends in good order: HAProxy is told before etcd */
    :: d_step { lease[r] > 0 -> lease[r] = 0; end_reading(r) }
    /* its store is made anew, of a copy that is older */
    :: d_step { position[r] > 0 ->
#ifndef KEPT_LEASE
        lease[r] = 0;
#endif
        end_reading(r); position[r]-- }
    od
}

/* the appender knows that the replica can't answer without the entry */
inline learn(r) {
    d_step { watched > 0 && !has[r] && (MAY_BE_GONE(r) || position[r] >= watched) -> has[r] = 1 }
}

inline end_wait() { has[0] = 1; has[1] = 1; has[2] = 1 }

#ifdef NO_WAIT
#define IS_EVERYWHERE true
#else
#define IS_EVERYWHERE (has[0] && has[1] && has[2] || age == LEASE)
#endif

proctype Appender() {
end:
    do
    :: d_step { head < ENTRIES -> head++ }
    :: d_step { head < ENTRIES && watched == 0 -> head++; watched = head }
    :: learn(0)
    :: learn(1)
    :: learn(2)
    :: d_step { watched > 0 && !is_acknowledged && IS_EVERYWHERE -> is_acknowledged = 1; end_wait() }
    od
}

inline tick_of(r) {
    if :: lease[r] > 0 -> lease[r]-- :: else fi;
    if :: reading[r] != none && since[r] < LEASE -> since[r]++ :: else fi;
#ifndef FROM_END
    /* (it would give nothing any more) */
    if :: since[r] == LEASE -> end_reading(r) :: else fi
#endif
}

proctype Clock() {
end:
    do
    :: d_step {
        if :: watched > 0 && age < LEASE -> age++ :: else fi;
        if :: age == LEASE -> end_wait() :: else fi;
        tick_of(0); tick_of(1); tick_of(2) }
    od
}

/* who asks there now gets an answer from a state that has the entry, if it was appended a lease ago, and if it was
   acknowledged */
#define ANSWERS(r) \
    assert(lease[r] == 0 || watched == 0 || age < LEASE || position[r] >= watched); \
    assert(lease[r] == 0 || !is_acknowledged || position[r] >= watched)

proctype Asker() {
end:
    do
    :: d_step { ANSWERS(0); ANSWERS(1); ANSWERS(2) }
    od
}

#ifdef SHOWS_ALL
#define SHOWS is_acknowledged && watched == 3 && lease[0] == 1 && lease[1] == 2 && lease[2] == 2
#endif
#ifdef SHOWS_WAITED                     /* acknowledged while one still lacks it, which answered before */
#define SHOWS is_acknowledged && watched == 1 && position[0] == 0 && position[1] == 3 && lease[1] == 2 && reading[0] == read
#endif
#ifdef SHOWS_BEHIND                     /* one answers without an entry that another one has: it isn't acknowledged */
#define SHOWS watched > 0 && !is_acknowledged && lease[0] == 1 && position[0] < watched && age == 1 && lease[1] > 0 \
    && position[1] == watched
#endif
#ifdef SHOWS
active proctype Shows() { end: atomic { SHOWS -> assert(false) } }
#endif

init {
    atomic { run Clock(); run Appender(); run Asker(); run Replica(0); run Replica(1); run Replica(2) }
}
