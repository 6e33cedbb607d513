/* The threads of `newsd serve` that have a session's messages answered and its replies released: the order of their steps on the locks,
   the flags and the bells. docs/THREADS.md says what each of them does. Each call of the kernel is one step, and each
   access to a flag, a bell or a lock is one.

   A session's thread leaves a block only while its session holds nothing and has nothing to write. The thread that flushes files it under
   the writer's lock and writes at once what is ready. Before anything else the session's thread takes the block back and has it answered.

   What must hold: each message is answered once and in order, and nothing that is ready is dropped at the end of a session (assertions).
   Where nothing moves any more, all that was taken is written, all that is ready is taken, all that was read is answered and durable, and
   no thread stands still but in its read (after `timeout`). Callers send when they like, and may fall silent at any point, so this is
   checked from every point.

   Check, for example with one session of two messages and a stop:
     spin -a -DS=1 -DM=2 -DSTOP threads.pml
     gcc -O1 -DSAFETY -DCOLLAPSE -DVECTORSZ=2048 -o pan pan.c
     ./pan -m2000000 -E
   tests/threads.py has the options that are checked, and the mutants, -DMUTANT=n, each of which must be refuted.

   S sessions with M messages each, line and block in turn; BLOCKFIRST: the block first; DEPTH1: callers wait for each reply; STAY: no
   caller ends its side; PART: a write may be cut short; LONG: the caller of session 0 may take nothing; FOUR: `try_lock` may fail while a
   thread waits for the lock; STOP: the server is stopped; FAULT: the device may fail; ACCEPT: a block is refused only because too many
   blocks are dirty; DMAX: how many changes that is.

   PLACES: the first message of a session is a block, and the others are NEWNEWS: the reply of one needs a place, of which there are so
   many, until its session holds nothing. The kernel hands out one output at a time. A session's thread asks for a place under the
   writer's lock, and waits for one without it; what is freed is given to one that waits, whichever that is (in the code, the first).
   M1: the messages of the sessions but the first. DROP: the operator drops session 0. LEAN: without the releaser, which only helps the
   flusher.

   OTHERS: whatever any number of other sessions and the operator do to this one, any number of times. Why one session beside them stands
   for any number of sessions: take a run of n sessions, and one of them, s. Leave out the steps of the other sessions' threads, and those
   of the flusher, of the releaser and of the threads of rests that concern other sessions. What is left is a run of this model with S=1 and
   OTHERS:
   1. Each step that is left reads and writes what belongs to s (its writer, its outputs in the kernel, its caller, its bells) and what is
      shared: the serials `accepted`, `taken`, `durable`, the flags `halted`, `stopping`, `closing`, `awaited`, and the bells of the flusher
      and of the releaser. The steps that are left out write nothing of s: a writer is named in each step by its session.
   2. What a step that is left out writes of what is shared, `Others` does, or the flusher in `gather`. A thread of another session has a
      change accepted and owes a ring, which it gives, or leaves to the block that is awaited; it rings when it is put off or ends. The
      flusher itself has changes accepted when it files what others have left, and owes no ring. It may ring the releaser for others after
      each commit. `taken`, `durable` and the flags are written by the flusher and by who stops the server, for all sessions alike.
   3. What is left out takes time alone. It ends: the flusher and the releaser wait for no writer's lock. While they try one again, a block
      is left, and nobody stands in a patient write under that lock (an assertion in `write`).
   4. What must hold is said of each session by itself, and of the serials. Where nothing moves in the run of n, nothing moves in what is
      left: `Others` may end wherever it owes no ring, and a thread that owes one still moves.
   The serials count only as far as they are apart, and what is durable is 0 from each commit on (`rebase`). So `Others` may act for ever,
   and the states are few: the search over all of them ends. */
#ifndef S
#define S 2
#endif
#ifndef M
#define M 2
#endif
#ifndef DMAX
#define DMAX 1
#endif
        /* DMAX: a block is refused as E8 while so many changes are dirty (256 blocks in the code) */
#define BMAX 2  /* a message is refused as E9 while so many outputs are in the kernel (1 MiB in the code) */
#ifndef MUTANT
#define MUTANT 0
#endif
#ifndef M1
#define M1 M
#endif
#define COUNT(s) (s == 0 -> M : M1)
#define OK 0
#define CLOSED 1
#define E8 2
#define E9 3
#define NONE 4
#define NOPLACE 5
#ifdef PLACES
#define ISBLOCK(i) ((i) == 0)
#else
#ifdef BLOCKFIRST
#define ISBLOCK(i) ((i) % 2 == 0)
#else
#define ISBLOCK(i) ((i) % 2 == 1)
#endif
#endif
#ifdef DEPTH1
#define MAYSEND(s) (got[s] < COUNT(s) && written[s] == got[s])
#else
#define MAYSEND(s) (got[s] < COUNT(s))
#endif
#define STUCK(s) (given[s] > written[s])
#define HASREADY(s) (given[s] < put[s] && dep[s*M+given[s]] <= durable)

/* the kernel */
byte accepted, taken, durable; bit halted, faulted;
byte put[S], given[S], ldep[S]; byte dep[S*M]; bit gone[S], closed[S];
/* the writers */
byte lk[S], written[S], left[S]; bit missed[S], waiting[S], hasleft[S], slow[S] /* a write was once cut short */;
#ifdef FOUR
byte wt[S];
#endif
#ifdef PLACES
/* the places: how many are taken; who has one, who waits for one, who was given one while it waited; nobody needs one any more */
byte used; bit has[S], wants[S], given_one[S], open;
#endif
bit dropped[S]; /* by the operator */
/* the bells: one token each */
bit tkF, tkR, tkRest[S], tkS[S], later[S] /* rang since the session's thread noted it */; bit awaited, stopping, closing;
/* the callers; at: 0 runs, 1 reads, 2 ended, 3 waits for a release (after a fault perhaps until the end), 4 for a place; fl: 0 runs, 1 parked, 2 ended */
byte got[S]; bit rdown[S]; byte at[S], fl; bit frozen /* caller 0 takes nothing, and a thread waits for it */;

#ifdef FOUR
inline lock(s) { wt[s]++; atomic { lk[s] == 0 -> lk[s] = _pid + 1; wt[s]-- } }
inline try_lock(s) { atomic { if :: lk[s] == 0 -> lk[s] = _pid + 1; won = 1 :: lk[s] != 0 || wt[s] > 0 -> won = 0 fi } }
#else
inline lock(s) { atomic { lk[s] == 0 -> lk[s] = _pid + 1 } }
inline try_lock(s) { atomic { if :: lk[s] == 0 -> lk[s] = _pid + 1; won = 1 :: else -> won = 0 fi } }
#endif
inline unlock(s) { atomic { assert(lk[s] == _pid + 1); lk[s] = 0 } }

inline k_give(s) { /* all that is ready is taken; held: outputs are left in the kernel */
#ifdef PLACES
  if :: HASREADY(s) && !gone[s] -> given[s]++ :: else fi; /* one release */
#else
  do :: HASREADY(s) && !gone[s] -> given[s]++ :: else -> break od;
#endif
  held = (given[s] < put[s] && !gone[s]) }

#ifdef PLACES
#if MUTANT == 14
/* the form in which the kernel's caller waits for a place, and a place is had only as long as that lasts or something is held */
inline take_place(s) { atomic { used < PLACES || halted -> used++ } }
inline answered_large(s) { used--; if :: res <= CLOSED && held && !has[s] && used < PLACES -> has[s] = 1; used++ :: else fi }
inline free_place(s) { if :: has[s] -> has[s] = 0; used-- :: else fi }
inline forget(s) { skip }
#else
inline take_place(s) { /* it is given one, or takes one that is free, or has to wait; it never waits here */
  atomic { if :: has[s] || open -> wants[s] = 0
              :: else -> if :: given_one[s] -> given_one[s] = 0; wants[s] = 0; has[s] = 1
                            :: else -> if :: used < PLACES && !wants[s] -> used++; has[s] = 1 :: else -> wants[s] = 1; res = NOPLACE fi fi fi } }
inline answered_large(s) { skip }
inline hand_on() { /* a place is free: one that waits gets it, whichever that is */
#if MUTANT == 15
  used--
#else
  if :: wants[0] && !given_one[0] -> given_one[0] = 1; if :: MUTANT != 16 -> tkS[0] = 1 :: else fi
#if S > 1
     :: wants[1] && !given_one[1] -> given_one[1] = 1; if :: MUTANT != 16 -> tkS[1] = 1 :: else fi
#endif
#if S > 2
     :: wants[2] && !given_one[2] -> given_one[2] = 1; if :: MUTANT != 16 -> tkS[2] = 1 :: else fi
#endif
     :: else -> used-- fi
#endif
  }
inline free_place(s) { if :: has[s] -> has[s] = 0; hand_on() :: else fi }
inline forget(s) { /* it waits no more */
#if MUTANT == 17
  wants[s] = 0
#else
  wants[s] = 0; if :: given_one[s] -> given_one[s] = 0; hand_on() :: else fi
#endif
  }
#endif
#else
inline free_place(s) { skip }
inline forget(s) { skip }
#endif
#define NOTE_HELD(s) waiting[s] = held; if :: !held -> free_place(s) :: else fi

inline less(number) { if :: number > durable -> number = number - durable :: else -> number = 0 fi }

inline rebase() { /* only how far serials are apart matters: what is durable is 0 from now on, so any number of changes has few states */
  less(accepted); less(taken); s = 0;
  do :: s < S -> less(ldep[s]); s++ :: else -> break od; s = 0;
  do :: s < S * M -> less(dep[s]); s++ :: else -> break od; s = 0;
  durable = 0 }

inline k_answer(s, i) { /* Kern::answer */
  if :: gone[s] || closed[s] -> res = NONE
     :: else -> if
       :: put[s] - given[s] >= BMAX -> res = E9
       :: else -> if
         :: halted -> closed[s] = 1; res = CLOSED
         :: !halted && ISBLOCK(i) && accepted - taken >= DMAX -> res = E8
         :: !halted && ISBLOCK(i) && !(accepted - taken >= DMAX) -> res = OK;
            if :: accepted++; ldep[s] = accepted  /* the change is accepted */
#ifndef ACCEPT
               :: skip                             /* 441: ready at once */
               :: ldep[s] = accepted               /* 441 because of a change that may be held */
#endif
            fi
         :: !halted && !ISBLOCK(i) -> res = OK;
#ifdef PLACES
            ldep[s] = accepted /* its reply depends on all that is accepted */
#else
            if :: skip :: ldep[s] = accepted :: i == M-1 -> closed[s] = 1; res = CLOSED /* QUIT */ fi
#endif
         fi fi fi;
  if :: res <= CLOSED -> assert(i == put[s]); /* each message once, in order */
        dep[s*M+put[s]] = ldep[s]; put[s]++; k_give(s) :: else fi }

#ifdef PART
inline write(s, long) { assert(lk[s] == _pid + 1);
  if :: written[s] = given[s] :: STUCK(s) && !long -> skip /* cut short */ fi }
#else
#ifdef LONG
inline write(s, long) { assert(lk[s] == _pid + 1);
  if :: written[s] = given[s] :: STUCK(s) && long && s == 0 -> assert(!hasleft[s]); frozen = 1; false /* the caller takes nothing */
     :: STUCK(s) && !long && s == 0 -> skip fi }
#else
inline write(s, long) { assert(lk[s] == _pid + 1); written[s] = given[s] }
#endif
#endif

inline release_ready(s, long) { held = 1;
  do :: atomic { write(s, long); if :: STUCK(s) -> held = 1; break :: else if :: !held -> break :: else fi fi; missed[s] = 0 };
     waiting[s] = 1;
     atomic { k_give(s) };
     atomic { NOTE_HELD(s); if :: !STUCK(s) -> break :: else has_taken = 1 fi } od }

inline release(s) { has_taken = 0;
  do :: lock(s); release_ready(s, 1); unlock(s); atomic { if :: !missed[s] -> break :: else fi } od }

inline catch_up(s) {
  do :: atomic { if :: !missed[s] -> break :: else fi }; try_lock(s); 
        if :: !won -> break :: else fi;
        release_ready(s, 0); atomic { won = !STUCK(s); if :: !won -> slow[s] = 1 :: else fi; unlock(s) };
        if :: !won -> tkRest[s] = 1; break :: else fi od }


inline send(s) { lock(s); atomic { write(s, 1) }; unlock(s); if :: missed[s] -> release(s) :: else fi }

inline ring_later() { d_step { s = 0; do :: s < S -> later[s] = 1; s++ :: else -> break od; s = 0 } }

inline note_post() { if :: tkF = 1 :: awaited -> skip /* the block that is awaited rings, or the pause ends */ fi }

/* the block that was left, if it is not filed yet */
inline take_back(s) { back = 0;
#if MUTANT == 12
  if :: hasleft[s] -> back = left[s]; left[s] = 0; hasleft[s] = 0 :: else fi }
#else
  if :: hasleft[s] -> lock(s); atomic { back = left[s]; left[s] = 0 }; hasleft[s] = 0; unlock(s) :: else fi }
#endif

#ifdef PLACES
inline await_place(s) { /* the desk is free; what is ready is written */
  do :: release(s);
        if :: atomic { closing || dropped[s] -> res = NONE; break } :: else fi;
        if :: atomic { !wants[s] || given_one[s] || open -> break } :: else fi;
        at[s] = 4; atomic { tkS[s] -> tkS[s] = 0; at[s] = 0 } od }
#endif

inline have_answered(s, n) {
  do :: later[s] = 0;
#ifdef PLACES
     lock(s); res = OK;
     if :: !ISBLOCK(n - 1) -> take_place(s) :: else fi;
     if :: res == NOPLACE -> unlock(s)
        :: else ->
     missed[s] = 0; waiting[s] = 1;
     atomic { k_answer(s, n - 1); if :: !ISBLOCK(n - 1) -> answered_large(s) :: else fi };
     if :: res >= E8 -> missed[s] = 1 :: else -> atomic { NOTE_HELD(s) }; if :: HASREADY(s) -> release_ready(s, 1) /* it is full */ :: else fi fi;
     unlock(s) fi;
#else
     lock(s); missed[s] = 0; waiting[s] = 1;
     atomic { k_answer(s, n - 1) };
     if :: res >= E8 -> missed[s] = 1 :: else -> waiting[s] = held fi;
     unlock(s);
#endif
     if :: res <= CLOSED -> if :: ISBLOCK(n - 1) && MUTANT != 3 -> note_post() :: else fi; break
        :: res == NONE -> break
#ifdef PLACES
        :: res == NOPLACE -> tkF = 1; await_place(s); if :: res == NONE -> break :: else fi
#endif
        :: res == E8 || res == E9 -> tkF = 1; release(s);
           if :: closing -> break :: else fi;
           if :: res == E8 -> later[s]
              :: res == E9 && !has_taken && held -> at[s] = 3; atomic { tkS[s] -> tkS[s] = 0; at[s] = 0 }
              :: else fi fi od }

proctype Session(byte s) { bit held, has_taken, fed; byte res, back;
  do :: /* the next message */
     atomic { fed = 0; res = 0; held = 0; has_taken = 0; back = 0 };
     if :: atomic { got[s] > 0 && MAYSEND(s) -> fed = 1; got[s]++ }  /* it came with the last one */
        :: skip fi;
     if :: fed
        :: else -> send(s);
           if :: atomic { stopping || closing -> break } :: else -> at[s] = 1 fi;
           if :: atomic { MAYSEND(s) -> got[s]++; at[s] = 0 }
#ifndef STAY
              :: atomic { at[s] = 0; break }                /* the caller ends its side */
#endif
              :: skip; atomic { rdown[s] -> at[s] = 0; break } fi fi;   /* the caller sends no more */
     take_back(s);
     if :: back == 0 :: else -> have_answered(s, back) fi;
     if :: res != OK -> break :: else fi;
     if :: ISBLOCK(got[s] - 1) -> lock(s);
           atomic { if :: (!waiting[s] && !STUCK(s) && !slow[s]) || MUTANT == 1 -> left[s] = got[s]; fed = 1 :: else -> fed = 0 fi };
           if :: fed && MUTANT == 5 -> note_post() :: else fi;
           if :: fed -> hasleft[s] = 1 :: else fi;
           unlock(s);
           if :: fed && MUTANT != 5 -> note_post() :: fed && MUTANT == 5 -> skip :: else -> have_answered(s, got[s]) fi
        :: else -> have_answered(s, got[s]) fi;
     if :: res != OK -> break :: else fi
  od;
  if :: res == OK && MUTANT != 10 -> take_back(s); if :: back == 0 :: else -> have_answered(s, back) fi :: else fi;
#ifdef DROP
  if :: dropped[s] -> goto over :: else fi;
#endif
  do :: /* finish */
#if MUTANT == 6
     release(s); fed = closing; if :: !held || fed -> break :: else fi;
#else
     fed = closing; release(s); if :: !held || fed -> break :: else fi;
#endif
     tkF = 1; at[s] = 3; atomic { tkS[s] -> tkS[s] = 0; at[s] = 0 } od;
#ifdef DROP
over:
#endif
  lock(s);
  atomic { /* nothing that is ready is left behind; all is answered unless the server ends */
           assert(dropped[s] || (!STUCK(s) && !HASREADY(s))); assert(halted || dropped[s] || written[s] == got[s]); gone[s] = 1 };
  atomic { waiting[s] = 0; free_place(s); forget(s) }; atomic { unlock(s); at[s] = 2 } }

proctype Rests(byte s) { bit held, has_taken;
  do :: atomic { tkRest[s] -> tkRest[s] = 0 }; if :: closing -> break :: else fi;
        release(s); atomic { tkS[s] = 1; held = 0; has_taken = 0 } od }

proctype Releaser() { bit held, has_taken, won, last; byte s;
  do :: atomic { last = closing; s = 0 };
        do :: s < S ->
              if :: atomic { waiting[s] -> skip }; missed[s] = 1; catch_up(s);
                    atomic { tkS[s] = 1; held = 0; has_taken = 0; won = 0 }
                 :: atomic { !waiting[s] -> skip } fi; s++
           :: else -> break od;
        if :: last -> break :: else fi;
        atomic { tkR -> tkR = 0 } od;
  atomic { s = 0; do :: s < S -> rdown[s] = 1; s++ :: else -> break od; s = 0 } }

inline gather() { atomic { s = 0 };
  do :: s < S -> 
     do :: !hasleft[s] -> break
        :: else ->
#if MUTANT == 13
           lock(s); won = 1;
#else
           try_lock(s);
#endif
           if :: !won -> skip /* whoever has it is short while a block is left; yield and look again */
           :: else ->
           if :: left[s] != 0 ->
                 atomic { assert(!STUCK(s) && given[s] == put[s]); missed[s] = 0 }; /* whose block is left holds nothing */
                 waiting[s] = 1;
                 atomic { k_answer(s, left[s] - 1); if :: res <= CLOSED || res == NONE -> left[s] = 0 :: else fi };
                 if :: res <= CLOSED || res == NONE -> hasleft[s] = 0; waiting[s] = held
#if MUTANT == 9
                    :: else -> left[s] = 0; hasleft[s] = 0; waiting[s] = 0 fi;
#else
                    :: else -> assert(res == E8); missed[s] = 1; waiting[s] = 0 fi;
#endif
#if MUTANT == 2
                 won = 1;
#else
                 atomic { write(s, 0); won = !STUCK(s); if :: !won -> slow[s] = 1 :: else fi };
#endif
              :: else -> atomic { won = 1; res = OK } fi;
           unlock(s);
           if :: won -> catch_up(s) :: else -> tkRest[s] = 1 fi;
           if :: res == CLOSED && MUTANT != 11 -> rdown[s] = 1 :: else fi; /* its thread shall end */
           atomic { held = 0; has_taken = 0; won = 0; res = 0 } ; break fi
     od; s++ :: else -> break od;
#ifdef OTHERS
  do :: atomic { !halted && accepted - taken < DMAX -> accepted++ } :: break od /* what other sessions have left */
#endif
  }

proctype Flusher() { bit got_batch, held, has_taken, won; byte batch, s, res;
  do :: if :: got_batch && MUTANT == 4 -> skip :: else -> gather() fi;
     atomic { got_batch = 0;
              if :: !halted && accepted > taken -> batch = accepted; taken = accepted; got_batch = 1 :: else fi };
     if :: got_batch -> ring_later();
#ifdef FAULT
           if :: skip :: atomic { halted = 1; faulted = 1; break } fi;
#endif
           d_step { durable = batch; batch = 0; rebase() };
           if :: tkR = 1 :: skip fi; /* more than 12 wait */
           atomic { s = 0 };
           do :: s < S ->
                 if :: atomic { waiting[s] && slow[s] -> tkR = 1 } /* it is the releaser's */
                    :: atomic { waiting[s] && !slow[s] -> skip }; missed[s] = 1; catch_up(s);
                       atomic { tkS[s] = 1; held = 0; has_taken = 0; won = 0 }
                    :: atomic { !waiting[s] -> skip } fi; s++
              :: else -> break od;
           if :: stopping :: !stopping
              :: !stopping -> awaited = 1; tkF = 0 /* a pause, which ends by the bell or in time */; gather(); awaited = 0 fi
        :: else -> 
           if :: atomic { stopping -> if :: durable == accepted -> halted = 1; break :: else fi } :: atomic { !stopping -> skip } fi;
           fl = 1; atomic { tkF -> tkF = 0; fl = 0 } fi od;
  tkR = 1; ring_later();       /* wake */
#ifdef PLACES
  atomic { open = 1; s = 0; do :: s < S -> tkS[s] = 1; s++ :: else -> break od; s = 0 };
#endif
  if :: faulted -> /* until a caller or a stop: what is left is still filed */
        do :: if :: MUTANT != 7 -> gather() :: else fi; if :: stopping -> break :: skip fi;
              if :: break :: fl = 1; atomic { tkF -> tkF = 0; fl = 0 } fi od
     :: else fi;
  closing = 1; ring_later(); tkR = 1;  /* close */
  atomic { s = 0; do :: s < S -> tkRest[s] = 1; tkS[s] = 1; s++ :: else -> break od; s = 0; fl = 2 } }

#ifdef STOP
proctype Stopper() { stopping = 1; tkF = 1 }
#endif
#ifdef DROP
proctype Dropper() { atomic { dropped[0] = 1; rdown[0] = 1; tkS[0] = 1 } }
#endif
#ifdef OTHERS
proctype Others() { bit owes;
  do :: atomic { !halted && accepted - taken < DMAX -> accepted++; owes = 1 } /* its thread had it answered */
     :: atomic { owes -> tkF = 1; owes = 0 }
     :: atomic { owes && awaited -> owes = 0 }
     :: atomic { owes -> tkF = 1 }                       /* one of several that owe a ring */
     :: tkF = 1                                          /* one that is put off, or ends; or the operator */
     :: atomic { !owes -> break } od }
#endif

init { byte s;
  atomic {
    do :: s < S -> run Session(s);
#if defined(PART) || defined(LONG)
           run Rests(s);
#endif
           s++
       :: else -> break od;
    s = 0;
#ifndef LEAN
    run Releaser();
#endif
    run Flusher();
#ifdef STOP
    run Stopper();
#endif
#ifdef DROP
    run Dropper();
#endif
#ifdef OTHERS
    run Others();
#endif
  };
  timeout; /* nothing moves any more: what must hold then */
  atomic { s = 0;
    do :: s < S ->
        if :: frozen && s == 0 -> s++ :: else fi; if :: s == S -> break :: else fi;
        /* no session's thread stands still but in its read */
        assert(at[s] == 1 || at[s] == 2 || (at[s] == 3 && faulted && !closing) || (at[s] == 4 && frozen && !dropped[s] && !closing));
#ifdef PLACES
        /* nobody waits for a place that is free, and a place that is taken has an owner */
        assert(at[s] != 4 || used >= PLACES);
#endif
        assert(at[s] == 2 || !closing);
        if :: gone[s] :: else ->
           assert(!STUCK(s));                    /* all that was taken is written */
           assert(!HASREADY(s));                 /* all that is ready is taken */
           assert(!closed[s] || at[s] != 1);     /* no thread reads for a closed session */
           assert(put[s] == got[s] || at[s] == 3 || at[s] == 4); /* all that was read is answered in the kernel, after a fault as well */
           assert(halted || at[s] == 4 || (written[s] == got[s] && put[s] == got[s])) fi;
        s++
       :: else -> break od;
    assert(halted || (durable == accepted && fl == 1)) } }
