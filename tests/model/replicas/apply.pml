/* Applying the log: three replicas, each of which sends one entry after another to its own pdpd and keeps how far it is.

   Entries are numbers here: append.pml shows that the log only grows at its end. The daemon may be killed, or the
   machine may crash, before any step: what a daemon has sent stays under way (on a connection whose other end has gone),
   and may be answered at any later moment, also more than once, but before what comes later: pdpd takes connections for
   changes one by one, as they come. It may be killed too, with all that it has under way; what it has made it keeps. That
   an entry applied twice in succession leaves what it leaves once is pdpd's theorem; that it is never applied otherwise
   is shown here.

   It matches deploy/replica/core.py, Applying, and deploy/log/daemon.py, `sent`.
   Wrong models: SYNC_LATER (the position before fdatasync), LATE_MESSAGE (pdpd answers connections in any order: a
   message that was left behind is answered behind entry n + 1), SENT_FIRST (an entry is sent before its record is on the
   disk). */

#define REPLICAS 3
#define ENTRIES 3

byte head;                              /* of the log */

mtype = { idle, recorded, sent, answered };
mtype state[REPLICAS] = idle;
byte position[REPLICAS];                /* the last entry whose reply is on the disk */
bit pending[REPLICAS];                  /* whether the record of the next one is on the disk */
#ifdef SYNC_LATER
byte memory[REPLICAS];                  /* the position that the daemon goes by */
#define AT(r) memory[r]
#else
#define AT(r) position[r]
#endif
bit again[REPLICAS];                    /* whether that one may have been sent before */
bit late[REPLICAS * (ENTRIES + 1)];     /* [.. + number]: a message that was left behind */
byte store[REPLICAS];                   /* the last entry that pdpd has made */
mtype = { none, first, second };
mtype reply[REPLICAS] = none;           /* on its way to the daemon: of the first application of the entry, or not */
byte i;

#define OLD(r, n) late[r * (ENTRIES + 1) + n]
#define IS_NONE_LEFT(r) (!OLD(r, 1) && !OLD(r, 2) && !OLD(r, 3))
#ifdef LATE_MESSAGE
#define HAS_TURN(r) true
#else
/* the daemon's message is answered once all is answered, or gone, that was left behind */
#define HAS_TURN(r) IS_NONE_LEFT(r)
#endif

/* pdpd makes an entry: the one behind the last, or the last one once more */
inline make(r, n) {
    assert(n == store[r] + 1 || n == store[r]);
    store[r] = n
}

/* the daemon ends: what it has sent is left behind, and what stands in its memory is gone */
inline leave_behind(r) {
    if
    :: state[r] == sent && reply[r] == none -> OLD(r, AT(r) + 1) = 1
    :: else
    fi;
    state[r] = idle; reply[r] = none; again[r] = 0;
#ifdef SYNC_LATER
    memory[r] = position[r];
#endif
}

proctype Replica(byte r) {
end:
    do
    /* ---- the daemon */
    :: d_step { state[r] == idle && AT(r) < head && !pending[r] ->
        /* the entry is recorded: written, and on the disk by fdatasync */
        again[r] = 0; state[r] = recorded;
#ifndef SENT_FIRST
        pending[r] = 1
#endif
       }
    :: d_step { state[r] == idle && pending[r] -> again[r] = 1; state[r] = recorded }
    :: d_step { state[r] == recorded -> state[r] = sent }
    :: d_step { state[r] == sent && reply[r] != none ->
        /* a reply that counts as the first one is one */
        assert(again[r] || reply[r] == first);
        reply[r] = none; state[r] = answered }
    /* the connection was lost: it is sent once more */
    :: d_step { state[r] == sent -> leave_behind(r); again[r] = 1; state[r] = recorded }
    /* 503: nothing was made, or all, once pdpd is started again, and nothing is under way: it is sent once more */
    :: d_step { state[r] == sent && reply[r] == none && HAS_TURN(r) -> again[r] = 1; state[r] = recorded }
    :: d_step { state[r] == sent && reply[r] == none && HAS_TURN(r) ->
        make(r, AT(r) + 1); again[r] = 1; state[r] = recorded }
#ifdef SYNC_LATER
    :: d_step { state[r] == answered -> memory[r]++; pending[r] = 0; again[r] = 0; state[r] = idle }
    :: d_step { position[r] < memory[r] -> position[r] = memory[r] }
#else
    /* the reply is recorded, and is on the disk */
    :: d_step { state[r] == answered -> position[r]++; pending[r] = 0; again[r] = 0; state[r] = idle }
#endif
    /* ---- its end, before any step; it is started again. Of what wasn't on the disk yet all may be there, or nothing */
    :: d_step { state[r] != idle -> leave_behind(r) }
    :: d_step { state[r] == idle && AT(r) < head && !pending[r] -> leave_behind(r); pending[r] = 1 }
#ifdef SYNC_LATER
    :: d_step { memory[r] != position[r] -> leave_behind(r); pending[r] = 1 }
#else
    :: d_step { state[r] == answered -> leave_behind(r); position[r]++; pending[r] = 0 }
#endif
    /* ---- pdpd */
    :: d_step { state[r] == sent && reply[r] == none && HAS_TURN(r) ->
        if :: store[r] == AT(r) -> reply[r] = first :: else -> reply[r] = second fi;
        make(r, AT(r) + 1) }
    :: d_step { OLD(r, 1) -> make(r, 1) }
    :: d_step { OLD(r, 2) -> make(r, 2) }
    :: d_step { OLD(r, 3) -> make(r, 3) }
    :: d_step { !IS_NONE_LEFT(r) -> OLD(r, 1) = 0; OLD(r, 2) = 0; OLD(r, 3) = 0 }
    od
}

proctype Log() {
    do
    :: head < ENTRIES -> head++
    :: else -> break
    od
}

#ifdef SHOWS_ALL
#define SHOWS position[0] == 3 && position[1] == 3 && position[2] == 3
#endif
#ifdef SHOWS_AGAIN                      /* the last entry was applied twice, and its reply doesn't count */
#define SHOWS store[0] == 3 && state[0] == answered && again[0] && position[1] == 3
#endif
#ifdef SHOWS
active proctype Shows() { end: atomic { SHOWS -> assert(false) } }
#endif

init {
    atomic { run Log(); run Replica(0); run Replica(1); run Replica(2) }
}
