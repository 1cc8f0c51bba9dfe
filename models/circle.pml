/* The circle of threads: receivers, workers and the sender, with inboxes, queues, door, notes and
   the roll of places; who asks for a place, moves, leaves and comes again; full lanes, and the end.
   Of crates/m17_receiver/src: receiver.rt (receive), entry.rt (enter, answer, claim), claim.rt,
   notes.rt; crates/m17_worker/src: worker.rt (work), gifts.rt (hand_over, give_back).

   Link 0 has K0 peers and hears E0 entries, link 1 has K1 and hears E1 (K1=0: there is one link),
   and then each ends. An entry is, of any of its peers, a frame, a PING, a leaving, a request for
   either module, or, of a stranger, what is answered at the door; or it is a Tick. There are
   MODULES modules and PLACES places; a queue holds 1, an inbox 2, the door 1; 2 events are enough
   to end a doze. With -DPATIENT the receivers claim until they have a place, and frames wait for
   room.

   Looked for: nothing moves any more, and a thread isn't through; a member that is replaced, or
   leaves twice; a Hello that has to be held back; notes that come to be full; a lane or a place
   that isn't empty in the end; the only peer of all that is turned away for its own place.

   Left out: the steps of lanes, bells and turns (lane.pml, bells.pml, turns.pml): a lane is a
   channel, and what a thread does between two waits is one step; the rule of the half; books,
   tapes, parrots. A claim that is tried again waits till a place is free. With two links there are
   too few entries for a frame that goes from one to the other.

   sound: -DK0=2 -DE0=3 -DK1=0 -DPATIENT
   sound: -DK0=2 -DE0=3 -DK1=0
   sound: -DK0=1 -DE0=2 -DK1=1 -DE1=1 -DPLACES=1 -DPATIENT
   sound: -DK0=1 -DE0=1 -DK1=1 -DE1=1
   sound: -DK0=1 -DE0=4 -DK1=0 -DPLACES=1

   no fault, entry-heard: the ear gives the next entry when there is one
   fault 1, link-ended: without the Stops
   harmless 2, notes-popped [-DE0=2]: left out, since they are popped before the notes can be full
   fault 3, posts-pushed: behind the wait for notes
   fault 4, notes-awaited: left out
   fault 5, place-claimed [-DK0=1 -DE0=4 -DPLACES=1]: before the wait for notes, and who moves finds its own place taken
   fault 6, answer-pushed: left out
   fault 7, all-known [-DPLACES=1 -DPATIENT]: left out
   fault 8, claimed-once [-DPLACES=1]: it claims until it has a place
   harmless 9, known-passed-over [-DE0=2 -DPATIENT]: left out, since the roll has none of these free
   fault 10, place-tried [-DPATIENT]: the first place alone
   fault 11, note-awaited-for-place [-DPATIENT]: where none is departing, too
   harmless 12, rested-for-place [-DE0=2 -DPATIENT]: where one is departing, too, at the price of looks at the roll
   harmless 13, note-tried [-DE0=2]: one note alone before each entry
   fault 14, note-slept-for: it goes on where there is none
   fault 15, item-offered: a Bye is left out
   fault 16, place-given-back [-DPATIENT]: left out
   harmless 17, place-given-back [-DE0=2 -DPATIENT]: before the Bye is offered
   fault 18, stops-counted [-DK0=1 -DE0=1 -DK1=1 -DE1=1]: it ends at the first one
   fault 19, old-place-looked-at [-DK0=1 -DE0=4 -DPLACES=1]: left out, and who moves finds its own place taken */
#ifndef FAULT
#define FAULT 0
#endif
#ifndef K0
#define K0 2
#endif
#ifndef E0
#define E0 3
#endif
#ifndef K1
#define K1 0
#endif
#ifndef E1
#define E1 0
#endif
#ifndef PLACES
#define PLACES 2
#endif
#define MODULES 2
#define ENOUGH 2
#define MOST 3                          /* known and departing of a link together, and what its notes hold */
#if K1 > 0
#define LINKS 2
#else
#define LINKS 1
#endif
#define LINK(g) ((g) < K0 -> 0 : 1)
#define BIT(n) (1 << (n))
#ifdef PATIENT
#define patient 1
#else
#define patient 0
#endif

mtype = { Join, Leave, Packet, Tick, Reply, Stop, Hello, Bye, Frame, Ack };

chan inbox[MODULES] = [2] of { mtype, byte, byte, byte };       /* event, peer or link, place, notes to wait for */
chan queue[MODULES * PLACES] = [1] of { mtype, byte, byte };    /* item, peer, notes to wait for */
chan door = [1] of { byte };
chan notes[2] = [MOST] of { byte };     /* peers: each has one departing member at the most */
bool taken[PLACES];                     /* the roll */
bool given[4];                          /* whether the place that a peer left last was given back */
bool w_sleeps[MODULES], s_sleeps;       /* the bells */
byte marks; bool stop;                  /* the sender's marks, and its order */
byte ended;

/* A push to a full lane rings its consumer and waits. It stands in an atomic step, which others break only where it waits. */
inline push_event(m_, quiet, k_, a_, b_, c_) {
  if :: full(inbox[m_]) -> w_sleeps[m_] = false :: nfull(inbox[m_]) fi;
  inbox[m_]!k_(a_, b_, c_);
  if :: quiet && w_sleeps[m_] && len(inbox[m_]) < ENOUGH :: else -> w_sleeps[m_] = false fi
}
inline push_reply() {
  if :: full(door) -> s_sleeps = false :: nfull(door) fi;
  door!l; marks = marks | 128; s_sleeps = false
}
inline push_item(q_, unrung, k_, a_, c_) {
  if :: full(queue[q_]) -> s_sleeps = false :: nfull(queue[q_]) fi;
  queue[q_]!k_(a_, c_); marks = marks | BIT(q_);
  if :: unrung :: else -> s_sleeps = false fi
}
inline try_item(q_, k_, a_) {
  if :: nfull(queue[q_]) -> queue[q_]!k_(a_, 0); marks = marks | BIT(q_) :: full(queue[q_]) fi
}

/* The receiver */
inline take_note() { dep = dep & ~BIT(g); departing--; noted++; last = g + 1; g = 0 }
inline pop_notes() {
#if FAULT == 13
  if :: notes[l]?g -> take_note() :: empty(notes[l]) fi
#elif FAULT != 2
  do :: notes[l]?g -> take_note() :: empty(notes[l]) -> break od        /* notes-popped, note-tried */
#else
  skip
#endif
}
inline pop_one() {
#if FAULT == 14
  if :: notes[l]?g -> take_note() :: empty(notes[l]) -> goes_on = true fi
#else
  notes[l]?g -> take_note()                                             /* note-slept-for */
#endif
}
inline push_leave() {
  push_event(left_module, 0, Leave, p, left_place, 0)
}
inline leave() {
  assert((dep & BIT(p)) == 0);
  left_module = module[p - base] - 1; left_place = place[p - base];
  given[p] = false;
  dep = dep | BIT(p); departing++; module[p - base] = 0; known--; place[p - base] = 0
}
inline is_known(c_) { has = (module[0] != 0 && place[0] == c_) || (module[1] != 0 && place[1] == c_) }

inline claim() {
  got = false; c = 0;
#if FAULT == 8
  do
  :: c < PLACES && !taken[c] -> taken[c] = true; got = true; break
  :: c < PLACES && taken[c] -> c++
  :: c == PLACES -> c = 0; (!taken[0] || !taken[PLACES - 1])
  od
#elif !defined(PATIENT)
#if FAULT != 19
  (last == 0 || given[last - 1]);                                       /* old-place-looked-at */
#endif
  do                                                                    /* claimed-once */
  :: c < PLACES && !taken[c] -> taken[c] = true; got = true; break
  :: c < PLACES && taken[c] -> c++
  :: c == PLACES -> break
  od
#else
  if
#if FAULT != 7
  :: known == PLACES                                                    /* all-known */
#endif
  :: FAULT == 7 || known < PLACES ->
     do
     :: got -> break
     :: !got ->
        c = 0;
        do
        :: c == PLACES -> break
        :: c < PLACES ->
           is_known(c);                                                 /* known-passed-over */
           if
           :: (FAULT == 9 || !has) && !taken[c] -> taken[c] = true; got = true; break   /* place-tried */
#if FAULT == 10
           :: else -> c = PLACES
#else
           :: else -> c++
#endif
           fi
        od;
        if
        :: got
#if FAULT == 11
        :: !got -> pop_one()
#elif FAULT == 12
        :: !got -> (!taken[0] || !taken[PLACES - 1])
#else
        :: !got && departing > 0 -> pop_one()                           /* note-awaited-for-place */
#if FAULT == 10
        :: !got && departing == 0 -> !taken[0]
#else
        :: !got && departing == 0 -> (!taken[0] || !taken[PLACES - 1])  /* rested-for-place */
#endif
#endif
        fi
     od
  fi
#endif
}

inline await_notes() {
  do
  :: !goes_on && ((dep & BIT(p)) != 0 || known + departing == MOST) -> pop_one()
  :: else -> goes_on = false; break
  od
}

proctype receiver(byte l; byte base; byte peers; byte entries) {
  byte module[2], place[2];
  byte known, departing, dep, noted, last, p, m, c, g, left_module, left_place; bool has, got, leaves, goes_on;
  do
  :: atomic { entries > 0 ->                                            /* entry-heard */
     entries--; pop_notes();
     p = base;
     if :: peers > 1 -> p = base + 1 :: true fi;
     if
     :: module[p - base] != 0 -> push_event(module[p - base] - 1, patient, Packet, p, place[p - base], 0)
     :: module[p - base] != 0 -> push_event(module[p - base] - 1, 0, Reply, p, place[p - base], 0)
     :: module[p - base] != 0 -> leave(); push_leave()
     :: module[p - base] == 0 -> push_reply()
     :: true -> m = 0; do :: m < MODULES -> push_event(m, 1, Tick, l, 0, 0); m++ :: else -> break od
     :: module[p - base] != 1 -> m = 1; goto asks
     :: module[p - base] != 2 -> m = 2; goto asks
     fi;
     goto next;
asks:
     leaves = (module[p - base] != 0);
     if :: leaves -> leave() :: else fi;
#if FAULT != 3
     if :: leaves -> push_leave() :: else fi                            /* posts-pushed */
#endif
     }
     atomic {
#if FAULT == 5
     claim();
#endif
#if FAULT != 4
     await_notes()                                                      /* notes-awaited */
#else
     skip
#endif
     }
     atomic {
#if FAULT == 3
     if :: leaves -> push_leave() :: else fi;
#endif
#if FAULT != 5
     claim()                                                            /* place-claimed */
#else
     skip
#endif
     }
     atomic {
     if
     :: got ->
        is_known(c); assert(!has);
        module[p - base] = m; place[p - base] = c; known++;
#if FAULT != 6
        push_event(m - 1, 0, Join, p, c, noted)                         /* answer-pushed */
#endif
     :: !got ->
#if K0 == 1 && K1 == 0
        assert(false);
#endif
        push_reply()
     fi
     }
next: atomic { c = 0; m = 0; p = 0; got = false; has = false; leaves = false; left_module = 0; left_place = 0 }
  :: atomic { entries == 0 -> break }
  od;
  atomic {
  pop_notes();
  p = base;
  do
  :: p < base + peers -> if :: module[p - base] != 0 -> leave(); push_leave() :: else fi; p++
  :: else -> break
  od;
#if FAULT != 1
  m = 0;
  do :: m < MODULES -> push_event(m, 0, Stop, l, 0, 0); m++ :: else -> break od;        /* link-ended */
#endif
  ended++ }
}

/* The worker */
inline tell(skipped) {
  x = 0;
  do
  :: x < PLACES ->
     if
     :: at[x] != 0 && x != skipped ->
        says = true;
#ifdef PATIENT
        push_item(w * PLACES + x, 1, Frame, at[x] - 1, 0)
#else
        try_item(w * PLACES + x, Frame, at[x] - 1)
#endif
     :: else
     fi;
     x++
  :: else -> break
  od
}
inline give_back() { given[a] = true; assert(taken[b]); taken[b] = false }

proctype worker(byte w) {
  byte at[PLACES];                      /* 0, or 1 + peer */
  byte a, b, c, x, stops; mtype k; bool says;
  do
#if FAULT == 18
  :: atomic { stops == 0 ->
#else
  :: atomic { stops < LINKS ->                                          /* stops-counted */
#endif
     if
     :: inbox[w]?k(a, b, c)
     :: empty(inbox[w]) ->
        if :: patient -> s_sleeps = false :: else fi;
        do
        :: inbox[w]?k(a, b, c) -> break
        :: empty(inbox[w]) -> w_sleeps[w] = true; w_sleeps[w] == false
        od
     fi;
     if
     :: k == Stop -> stops++
     :: k == Tick -> skip
     :: k == Packet -> tell(b)
     :: k == Reply -> says = true; push_item(w * PLACES + b, 0, Ack, a, 0)
     :: k == Join -> assert(at[b] == 0); says = true; at[b] = 1 + a; push_item(w * PLACES + b, 0, Hello, a, c)
     :: k == Leave ->
        assert(at[b] == 1 + a); says = true; at[b] = 0;
#if FAULT == 17
        give_back();
#endif
#if FAULT != 15
        push_item(w * PLACES + b, 0, Bye, a, 0);                        /* item-offered */
#endif
        goto gives
     fi;
     goto rouses
     }
gives: atomic {
#if FAULT != 16 && FAULT != 17
     give_back()                                                        /* place-given-back */
#else
     skip
#endif
     }
rouses: atomic {
     if :: says && !patient -> s_sleeps = false :: else fi;
     a = 0; b = 0; c = 0; x = 0; k = 0; says = false }
#if FAULT == 18
  :: atomic { stops > 0 -> break }
#else
  :: atomic { stops == LINKS -> break }
#endif
  od;
  ended++
}

/* The sender */
inline say() {
  if
  :: k == Hello -> assert(noted[LINK(a)] >= c)
  :: k == Bye -> assert(nfull(notes[LINK(a)])); notes[LINK(a)]!a; noted[LINK(a)]++
  :: else
  fi
}

active proctype sender() {
  byte noted[2]; byte hint, q, a, c; mtype k; bool did;
  do
  :: atomic {
     hint = hint | marks; marks = 0; did = false;
     if :: stop -> break :: else fi;
     do :: door?a -> did = true :: empty(door) -> break od;
     a = 0; hint = hint & 127; q = 0 }
     do
     :: atomic { hint >= BIT(q) ->
        do :: (hint & BIT(q)) == 0 -> q++ :: else -> break od;
        if
        :: queue[q]?k(a, c) -> did = true; say()
        :: empty(queue[q]) -> hint = hint & ~BIT(q)
        fi;
        a = 0; c = 0; k = 0; q++ }
     :: atomic { hint < BIT(q) -> break }
     od;
     atomic {
     q = 0;
     if
     :: did || marks != 0 || stop
     :: else -> s_sleeps = true; s_sleeps == false
     fi }
  od;
  atomic {
  did = true;
  do
  :: did ->
     did = false;
     do :: door?a -> did = true :: empty(door) -> break od;
     q = 0;
     do
     :: q < MODULES * PLACES -> if :: queue[q]?k(a, c) -> did = true; say() :: empty(queue[q]) fi; q++
     :: else -> break
     od
  :: else -> break
  od;
  assert(empty(door)); q = 0;
  do :: q < MODULES * PLACES -> assert(empty(queue[q])); q++ :: else -> break od;
  q = 0;
  do :: q < MODULES -> assert(empty(inbox[q])); q++ :: else -> break od;
  q = 0;
  do :: q < PLACES -> assert(!taken[q]); q++ :: else -> break od }
}

init {
  atomic {
    run receiver(0, 0, K0, E0);
#if K1 > 0
    run receiver(1, K0, K1, E1);
#endif
    run worker(0); run worker(1)
  }
  atomic { ended == MODULES + LINKS -> stop = true; s_sleeps = false }
}
