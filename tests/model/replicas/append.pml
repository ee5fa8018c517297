/* Appending to the log: three daemons, each with one change, race for the head of the log in etcd.

   A transaction is "if the head is HEAD: put entry HEAD + 1, and the head". Once sent it is under way for ever: etcd
   may execute it at any later moment, also again, or never; and any answer may be lost. So a write may be lost or late,
   a daemon may stand still before any step, and one that is cut off is one whose steps with etcd don't come.

   It matches deploy/replica/core.py, Appending. Wrong models: NO_COMPARISON (etcd doesn't compare the head), GUESSED_FATE (an
   attempt whose fate is open counts as not made). SHOWS_..: what has to be found. */

#define REPLICAS 3
#define ENTRIES 3

byte head;                              /* of the log: the number of its last entry */
byte entry[ENTRIES + 1];                /* whose change entry N is: of daemon entry[N] - 1 */
bit under_way[REPLICAS * ENTRIES];      /* [daemon * ENTRIES + head]: its transaction with that head was sent */

mtype = { ready, waits, open, appended, unavailable, unknown };
mtype state[REPLICAS] = ready;
byte known[REPLICAS];                   /* the head that it goes by */
byte attempt[REPLICAS];                 /* the number that its entry has if an attempt was made whose fate is open; 0 */
byte number[REPLICAS];                  /* the number that its entry has */
byte told[REPLICAS];                    /* etcd's answer on its way: 1 made, 2 not made */
byte i, n;                              /* of the checks */

#ifdef NO_COMPARISON
#define HOLDS(h) true
#else
#define HOLDS(h) (head == h)
#endif

/* what is promised of the log, behind each step of etcd and each answer to a client */
inline look() {
    i = 0;
    do
    :: i < REPLICAS ->
        n = (entry[1] == i + 1) + (entry[2] == i + 1) + (entry[3] == i + 1);
        assert(n <= 1);                                             /* no change is twice in the log */
        assert(state[i] != appended || entry[number[i]] == i + 1);  /* an acknowledged one is at its place for ever */
        assert(state[i] != unavailable || n == 0);                  /* one that was refused (503) never is */
        i++
    :: else -> break
    od;
    i = 0; n = 0
}

/* etcd executes a transaction that was sent, and its answer comes or is lost */
inline execute(r, h) {
    d_step {
        under_way[r * ENTRIES + h] ->
        if
        :: HOLDS(h) -> entry[h + 1] = r + 1; head = h + 1; n = 1
        :: else -> n = 2
        fi;
        if
        :: is_answered && state[r] == waits && known[r] == h && told[r] == 0 -> told[r] = n
        :: else
        fi;
        look()
    }
}

/* (what a d_step chooses has to be chosen before it) */
bit is_answered;

proctype Etcd() {
    byte r, h;
end:
    do
    :: atomic {
        if :: is_answered = 1 :: is_answered = 0 fi;
        if :: r = 0 :: r = 1 :: r = 2 fi;
        if :: h = 0 :: h = 1 :: h = 2 fi;
        if
        :: under_way[r * ENTRIES + h] -> execute(r, h)
        :: else
        fi;
        r = 0; h = 0; is_answered = 0
       }
    od
}

/* the daemon sends its transaction with the head that it knows */
inline send(r) {
    under_way[r * ENTRIES + known[r]] = 1; told[r] = 0; state[r] = waits
}

proctype Daemon(byte r) {
    do
    /* none of its attempts is open: it reads the head, and sends */
    :: d_step { state[r] == ready -> known[r] = head; send(r) }
    /* the answer has come */
    :: d_step { state[r] == waits && told[r] == 1 ->
        number[r] = known[r] + 1; attempt[r] = 0; known[r] = 0; told[r] = 0; state[r] = appended; look() }
    /* it wasn't made, or no answer has come: the fate of its attempts is open */
    :: d_step { state[r] == waits && told[r] != 1 ->
#ifdef GUESSED_FATE
        state[r] = ready;
#else
        if :: attempt[r] == 0 -> attempt[r] = known[r] + 1 :: else fi;
        state[r] = open;
#endif
        known[r] = 0; told[r] = 0
       }
    /* the head settles it: once it has moved, the attempt was made, or can't be any more */
    :: d_step { state[r] == open ->
        if
        :: head < attempt[r] -> known[r] = head; send(r)
        :: else ->
            if
            :: entry[attempt[r]] == r + 1 -> number[r] = attempt[r]; state[r] = appended
            :: else -> state[r] = ready
            fi;
            attempt[r] = 0
        fi;
        look() }
    /* its time is over: 503 if no attempt is open, else 504; a killed daemon answers as little as with 504 */
    :: d_step { state[r] == ready -> state[r] = unavailable; look() }
    :: d_step { state[r] == waits || state[r] == open ->
        state[r] = unknown; known[r] = 0; attempt[r] = 0; told[r] = 0 }
    :: state[r] == appended || state[r] == unavailable || state[r] == unknown -> break
    od
}

/* what the search has to find, so that it doesn't pass by going nowhere */
#ifdef SHOWS_ALL
#define SHOWS head == 3 && state[0] == appended && state[1] == appended && state[2] == appended
#endif
#ifdef SHOWS_LATE                       /* a client got 504, and its change came behind a later one */
#define SHOWS state[0] == unknown && state[1] == appended && number[1] == 1 && entry[2] == 1
#endif
#ifdef SHOWS
active proctype Shows() { end: atomic { SHOWS -> assert(false) } }
#endif

init {
    atomic { run Etcd(); run Daemon(0); run Daemon(1); run Daemon(2) }
}
