/* Who wakes whom for what: quiet pushes and a worker that dozes, unrung pushes and a sender that is
   roused. Of crates/m17_receiver/src/posting.rt (push_one, push_in, enough),
   crates/m17_worker/src/turn.rt (next_event, serve) and offers.rt (put, push).

   LINKS receivers push ENTRIES events each: a packet, a Tick, a Leave (for whose note each waits,
   at once or later) or, to the door, a NACK. Then each ends with a Stop, or hears nothing more. The
   worker of one module makes a frame of a packet, a PING or nothing of a Tick, and a Bye of a
   Leave. The sender notes each Bye. With -DPATIENT as in `replay`: packets are pushed quietly,
   frames wait for room, and the worker rouses before it waits. With -DPARROT the worker sleeps and
   never dozes.

   Looked for: nothing moves any more, and a receiver, or the worker behind all Stops, isn't
   through; or an item lies; or an event does, other than those that can wait and are fewer than
   enough, below a worker that dozes.

   Left out: the steps of lanes and marks (lane.pml, bells.pml): an item is in, and then its lane's
   bell is rung or left, in two steps, and who meets a full lane rings and waits till there is room.

   sound: -DENTRIES=3
   sound: -DENTRIES=3 -DPATIENT
   sound: -DENTRIES=3 -DPARROT
   sound: -DLINKS=2 -DENTRIES=1
   sound: -DLINKS=2 -DENTRIES=1 -DPATIENT

   fault 1, reply-rung: it is pushed unrung
   harmless 2, pushed-quietly [-DENTRIES=2]: with a ring, at the price of a waking for each
   fault 3, pushed-with-ring: a Leave is pushed quietly
   fault 4, pushed-with-ring: a Stop is pushed quietly
   fault 5, pushed-with-ring: a packet is pushed quietly where nobody is patient
   fault 6, event-handed-out: behind the rouse
   fault 7, roused-behind-event: left out
   harmless 8, event-tried [-DENTRIES=2 -DPATIENT]: left out, since it is tried once the wait is announced
   fault 9, roused-before-waiting [-DPATIENT]: left out
   fault 10, slept-for-event [-DPARROT]: it dozes
   harmless 11, dozed-for-event [-DENTRIES=2]: it sleeps, at the price of a waking for each Tick
   harmless 12, pushed-if-room [-DENTRIES=2]: it waits for room, which comes: but one peer would hold up a module
   fault 13, pushed-unrung [-DPATIENT]: it waits at a full queue without a ring
   harmless 14, rung-item [-DENTRIES=2]: unrung, since the rouse behind the event takes it along
   harmless 15, rung-item [-DENTRIES=2 -DPATIENT]: unrung, since the worker rouses before it waits, at the price of a delay */
#ifndef FAULT
#define FAULT 0
#endif
#ifndef LINKS
#define LINKS 1
#endif
#ifndef ENTRIES
#define ENTRIES 4
#endif
#define INBOX 4
#define QUEUE 1
#define DOOR 1
#define ENOUGH 2                        /* half of the inbox */
#ifdef PATIENT
#define patient true
#else
#define patient false
#endif
#ifdef PARROT
#define parrot true
#else
#define parrot false
#endif

mtype = { Packet, Tick, Leave, Stop, Frame, Bye };

chan inbox = [INBOX] of { mtype, byte };
chan queue = [QUEUE] of { mtype, byte };
chan door = [DOOR] of { byte };
byte notes[LINKS];
bool w_announced, w_dozes, w_told;      /* the worker's bell */
bool s_announced, s_told, marks;        /* the sender's bell */
byte owed;                              /* how many events, from the oldest on, are not to be left lying */
byte through; bool w_through;

inline ring_w() { if :: w_announced -> w_announced = false; w_told = true :: else fi }
inline ring_s() { if :: s_announced -> s_announced = false; s_told = true :: else fi }

/* An event to the inbox: `quiet` leaves a doze over too few. */
inline push_event(what, quiet, waits) {
  atomic {
    if :: full(inbox) -> ring_w() :: nfull(inbox) fi;
    inbox!what(link);
    if :: !waits || parrot -> owed = len(inbox) :: else fi
  };
  atomic { if :: quiet && w_announced && w_dozes && len(inbox) < ENOUGH :: else -> ring_w() fi }
}

inline push_reply() {
  atomic { if :: full(door) -> ring_s() :: nfull(door) fi; door!link };
#if FAULT != 1
  atomic { marks = true; ring_s() }                                     /* reply-rung */
#else
  marks = true
#endif
}

proctype receiver(byte link) {
  byte entries = ENTRIES; bool departing;
  do
  :: entries > 0 ->
     entries--;
     if
#if FAULT == 2
     :: push_event(Tick, false, true)
#else
     :: push_event(Tick, true, true)                                    /* pushed-quietly */
#endif
#if FAULT == 5
     :: push_event(Packet, true, patient)
#else
     :: push_event(Packet, patient, patient)
#endif
     :: !departing ->                                                   /* pushed-with-ring */
        push_event(Leave, FAULT == 3, false); departing = true
     :: push_reply()
     fi;
     if
     :: departing -> atomic { notes[link] > 0 -> notes[link]--; departing = false }
     :: true
     fi
  :: true -> break
  od;
  if
  :: atomic { departing && notes[link] > 0 -> notes[link]--; departing = false }
  :: !departing
  fi;
  if
  :: push_event(Stop, FAULT == 4, false)
  :: true
  fi;
  atomic { entries = 0; through++ }
}

/* An item to the queue: a try, or it waits for room. */
inline try_item(what) {
  atomic { if :: nfull(queue) -> queue!what(link); marks = true :: full(queue) fi }
}
inline push_item(what) {
#if FAULT == 13
  atomic { queue!what(link); marks = true }
#else
  atomic {
    if :: full(queue) -> ring_s() :: nfull(queue) fi;
    queue!what(link); marks = true
  }
#endif
}

inline offer_frame() {
  says = true;
  if
  :: patient -> push_item(Frame)                                        /* pushed-unrung */
#if FAULT == 12
  :: !patient -> push_item(Frame)
#else
  :: !patient -> try_item(Frame)                                        /* pushed-if-room */
#endif
  fi
}

inline hand_out() {                                                     /* event-handed-out */
  if
  :: what == Packet -> offer_frame()
  :: what == Tick -> if :: offer_frame() :: !parrot fi
  :: what == Leave -> says = true;
#if FAULT == 14 || FAULT == 15
     push_item(Bye)
#else
     push_item(Bye); atomic { ring_s() }                                /* rung-item */
#endif
  :: what == Stop -> stops++
  fi
}

inline rouse_behind() {
#if FAULT != 7
  if :: says && !patient -> atomic { ring_s() } :: else fi              /* roused-behind-event */
#else
  skip
#endif
}

#if FAULT == 10
#define DOZES true
#elif FAULT == 11
#define DOZES false
#else
#define DOZES !parrot
#endif
#define MAY_LIE (through == LINKS && owed == 0 && (len(inbox) == 0 || (!parrot && len(inbox) < ENOUGH)))

#define TAKE if :: owed > 0 -> owed-- :: else fi

active proctype worker() {
  byte link, stops; mtype what; bool says;
  do
  :: stops == LINKS -> break
  :: stops < LINKS ->
     if
#if FAULT != 8
     :: atomic { inbox?what(link) -> TAKE }                             /* event-tried */
     :: empty(inbox) ->
#else
     :: true ->
#endif
#if FAULT != 9
        if :: patient -> atomic { ring_s() } :: !patient fi;            /* roused-before-waiting */
#endif
        do                                                              /* slept-for-event, dozed-for-event */
        :: atomic { w_announced = true; w_dozes = DOZES; w_told = false };
           if
           :: atomic { inbox?what(link) -> TAKE }; break
           :: empty(inbox) ->
              if
              :: w_told
              :: MAY_LIE -> goto done
              fi
           fi
        od
     fi;
#if FAULT == 6
     says = (what == Packet || what == Leave);
     rouse_behind(); hand_out();
#else
     hand_out(); rouse_behind();
#endif
     what = 0; link = 0; says = false
  od;
  /* the order to stop, which comes behind the end of all, is on the sender's bell */
  through == LINKS;
  atomic { ring_s() };
done:
  stops = 0;
  w_through = true
}

active proctype sender() {
  byte link; mtype what; bool did;
  do
  :: atomic { marks = false; did = false };
     atomic { do :: door?link -> did = true :: empty(door) -> break od };
     atomic {
       if
       :: queue?what(link) ->
          did = true;
          if :: what == Bye -> notes[link]++ :: else fi
       :: empty(queue)
       fi;
       what = 0; link = 0
     };
     if
     :: did
     :: !did ->
        atomic { s_announced = true; s_told = false };
        if
        :: marks
        :: !marks ->
           if
           :: s_told
           :: w_through && len(queue) == 0 && len(door) == 0 -> break
           fi
        fi
     fi
  od
}

init { atomic { run receiver(0);
#if LINKS > 1
  run receiver(1)
#endif
} }
