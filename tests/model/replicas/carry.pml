/* A domain goes from one group of machines to another (ALL_GROUPS): who changes it, and who decides for it.

   Two replicas of the group where it was, clocks of equal speed. A replica's HAProxy leads the domain's messages to the
   old shard until it is told of the map's change by its follower, at any moment or never; behind that the follower
   notes the change, by which the daemon knows it. HAProxy may begin anew with an older map, and the follower with an
   older file: the first one answers nothing until it was told what the follower knows, and the second one tells nothing
   until it knows what was noted (and more, if etcd answers it). A message that HAProxy has led waits for the daemon,
   for any time; the daemon looks at the log, and appends if the head is the same then and nothing is frozen. A lease
   lasts LEASE ticks from the moment at which the daemon began to read the log, as in lease.pml; each step may be put
   off. The one who carries the domain may stand still between any two steps, and those that are cut are made again.
   HAProxy and follower of one of the two begin anew: that saves states.

   A change is lost if the old shard takes it once the domain was copied. A decision is stale if the old shard gives it
   once the new one has taken a change. Behind the entry that removes the domain the old shard takes none (it answers
   401).

   It matches deploy/replica/regrouping.py, carry, following.py, and core.py, Lease and Appending.

   Wrong models: NO_LED (neither lease nor append asks by which change of the map messages are led), NO_WAIT (nobody
   waits for those that don't follow), NO_FENCE (changes are taken before the domain is removed), OPEN_COPY (nothing is
   frozen before the copy), OLD_FILE (a follower that has begun tells what its file has), NOTED_FIRST (it notes a change
   before HAProxy is told). SHOWS_..: what has to be found. */

#define REPLICAS 2
#define LEASE 2

bit frozen, copied, moved, led, removed, thawed;
bit changed;                            /* the new shard has taken a change */
bit lost, stale;
byte head;                              /* of the old shard's log */
byte age;                               /* how many ticks ago `led` was put, at most LEASE */
bit waited[REPLICAS];                   /* it follows, or has no lease from before */

bit knows[REPLICAS];                    /* its follower does, of the change of the map */
bit follows[REPLICAS];                  /* HAProxy was told, and leads to the new shard */
bit noted[REPLICAS];                    /* the daemon knows that it was */
bit away[REPLICAS];                     /* HAProxy answers nothing yet */
mtype = { none, begun, read };
mtype reading[REPLICAS] = none;
byte since[REPLICAS];
bit found[REPLICAS];                    /* `led`, as it was read */
byte lease[REPLICAS];
bit queued[REPLICAS];                   /* a change that HAProxy has led to the old shard */
byte looked[REPLICAS];                  /* the head that its daemon has seen, and one more; 0: none */

#define MOST 3
#ifdef NO_LED
#define MAY(r, seen) true
#else
#define MAY(r, seen) (seen <= noted[r])
#endif
#ifdef OLD_FILE
#define MAY_TELL(r) true
#else
#define MAY_TELL(r) (knows[r] >= noted[r])
#endif
#ifdef NOTED_FIRST
#define MAY_NOTE(r) knows[r]
#else
#define MAY_NOTE(r) (knows[r] && follows[r])
#endif

inline end_reading(r) { reading[r] = none; since[r] = 0; found[r] = 0 }

proctype Replica(byte r) {
end:
    do
    :: d_step { moved && !knows[r] -> knows[r] = 1 }
    :: d_step { (away[r] || follows[r] != knows[r]) && MAY_TELL(r) -> follows[r] = knows[r]; away[r] = 0 }
    :: d_step { MAY_NOTE(r) && !noted[r] -> noted[r] = 1 }
    /* HAProxy begins anew, and the follower */
    :: d_step { r == 0 && !away[r] -> away[r] = 1; follows[r] = 0 }
    :: d_step { r == 0 && knows[r] -> knows[r] = 0 }
    :: d_step { reading[r] == none && lease[r] < LEASE -> reading[r] = begun }
    :: d_step { reading[r] == begun -> reading[r] = read; found[r] = led }
    :: d_step { reading[r] == read && MAY(r, found[r]) ->
        if :: LEASE - since[r] > lease[r] -> lease[r] = LEASE - since[r] :: else fi;
        end_reading(r) }
    :: d_step { reading[r] != none -> end_reading(r) }
    :: d_step { lease[r] > 0 -> lease[r] = 0; end_reading(r) }
    /* a change, which waits */
    :: d_step { !queued[r] && !follows[r] && !away[r] && head < MOST -> queued[r] = 1 }
    :: d_step { queued[r] && looked[r] == 0 && !frozen && MAY(r, led) -> looked[r] = head + 1 }
    :: d_step { looked[r] > 0 ->
        if
        :: !frozen && looked[r] == head + 1 -> head++; lost = lost || copied && !removed; queued[r] = 0
        :: else
        fi;
        looked[r] = 0 }
    :: d_step { queued[r] -> queued[r] = 0; looked[r] = 0 }
    od
}

inline learn(r) {
    d_step { led && !waited[r] && (noted[r] || lease[r] == 0 && reading[r] != read) -> waited[r] = 1 }
}

#ifdef NO_WAIT
#define NOBODY_ELSE true
#else
#define NOBODY_ELSE (waited[0] && waited[1] || age == LEASE)
#endif

proctype Carrier() {
#ifndef OPEN_COPY
    frozen = 1;
#endif
    copied = 1;
    frozen = 1;
    moved = 1;
    led = 1;
    NOBODY_ELSE;
#ifndef NO_FENCE
    d_step { removed = 1; head++ };
#endif
    d_step { frozen = 0; thawed = 1 }
}

proctype Learner() {
end:
    do
    :: learn(0)
    :: learn(1)
    :: d_step { thawed && !changed -> changed = 1 }
    od
}

inline tick_of(r) {
    if :: lease[r] > 0 -> lease[r]-- :: else fi;
    if :: reading[r] != none && since[r] < LEASE -> since[r]++ :: else fi;
    if :: since[r] == LEASE -> end_reading(r) :: else fi
}

proctype Clock() {
end:
    do
    :: d_step { if :: led && age < LEASE -> age++ :: else fi; tick_of(0); tick_of(1) }
    od
}

#define DECIDES(r) (lease[r] > 0 && !follows[r] && !away[r])

proctype Asker() {
end:
    do
    :: d_step {
        stale = changed && (DECIDES(0) || DECIDES(1));
        assert(!lost);
        assert(!stale) }
    od
}

#ifdef SHOWS_CARRIED                    /* all follow, and decide for other domains */
#define SHOWS thawed && changed && follows[0] && follows[1] && lease[0] == LEASE && lease[1] == LEASE
#endif
#ifdef SHOWS_AWAY                       /* one doesn't follow, and decides nothing */
#define SHOWS thawed && changed && !follows[0] && lease[0] == 0 && follows[1] && lease[1] == LEASE
#endif
#ifdef SHOWS_LATE                       /* a change that waited is appended behind the one that removes the domain */
#define SHOWS thawed && removed && head == 3 && !lost && follows[0]
#endif
#ifdef SHOWS
active proctype Shows() { end: atomic { SHOWS -> assert(false) } }
#endif

init { atomic { run Clock(); run Carrier(); run Learner(); run Asker(); run Replica(0); run Replica(1) } }
