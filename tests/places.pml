/* The places for large replies: who has one, who waits for one, and what that keeps from whom. Of the threads of `newsd serve` it has those
   of N sessions, those that finish writes that were cut short, and the one that flushes; threads.pml has the steps of one session whole.

   A session sends M times NEWNEWS, whose reply depends on all that is accepted, so it is held until a commit. Others post when they like.
   One has a place from before its answer until its session holds nothing, and there are P. A caller may take nothing more at any time: then
   who writes patiently to it stands still. The kernel hands out one reply at a time.

   What must hold: where nothing moves any more, each caller that takes what is written has all its replies, or waits for a place while each
   place is held by one that takes nothing; and whatever is durable of its replies is written, even then. A session that is dropped ends.
   One that has a place never waits for another.

   Check: spin -a -DN=2 -DM=2 -DP=1 places.pml; gcc -O2 -DSAFETY -o pan pan.c; ./pan -m1000000 -E
   MUTANT 1: a thread waits for a place with its desk. 2: who is given a place isn't woken. 3: who ends keeps the place that it was given.
   4: one that has a place waits for another. tests/threads.py has what is checked.
   DEAF: callers may take nothing. DROP: the operator drops session 0. */
#ifndef N
#define N 2
#endif
#ifndef M
#define M 2
#endif
#ifndef P
#define P 1
#endif
#ifndef MUTANT
#define MUTANT 0
#endif
#define HELD(s) (later[s] + flying[s] + ready[s] > 0)

bit dirty;                                  /* something is accepted that no batch has */
byte later[N], flying[N], ready[N];         /* replies in the kernel: behind what is dirty, behind the batch in flight, to be handed out */
byte taken[N];                              /* replies that were handed out and aren't written */
byte lk[N]; bit missed[N], token[N], rest[N];
byte used; bit has[N], wants[N], given[N];
bit deaf[N], dropped[N]; byte at[N];        /* at: 0 runs, 2 ended, 4 waits for a place, 5 waits for a release */

inline lock(s) { atomic { lk[s] == 0 -> lk[s] = _pid + 1 } }
inline unlock(s) { lk[s] = 0 }

inline hand_on(s) { /* a place is free */
  if
  :: wants[0] && !given[0] -> given[0] = 1; if :: MUTANT != 2 -> token[0] = 1 :: else fi
#if N > 1
  :: wants[1] && !given[1] -> given[1] = 1; if :: MUTANT != 2 -> token[1] = 1 :: else fi
#endif
#if N > 2
  :: wants[2] && !given[2] -> given[2] = 1; if :: MUTANT != 2 -> token[2] = 1 :: else fi
#endif
  :: else -> used-- fi }

inline note_held(s) { if :: !HELD(s) && has[s] -> has[s] = 0; if :: MUTANT == 1 -> used-- :: else -> hand_on(s) fi :: else fi }

/* what is ready is written, one reply at a time, by one that holds the desk; a patient one may stand still */
inline release_ready(s, patient) {
  do
  :: atomic { deaf[s] && taken[s] > 0 && patient -> at[s] = 6; false }
  :: atomic { deaf[s] && taken[s] > 0 && !patient -> rest[s] = 1; break }
  :: atomic { !(deaf[s] && taken[s] > 0) -> taken[s] = 0; missed[s] = 0;
              if :: ready[s] > 0 -> ready[s]--; taken[s] = 1; note_held(s) :: else -> note_held(s); break fi }
  od }

inline release(s) { do :: lock(s); release_ready(s, 1); unlock(s); atomic { if :: !missed[s] -> break :: else fi } od }

inline answer(s) { atomic { if :: dirty -> later[s]++ :: !dirty && flying[s] > 0 -> flying[s]++ :: else -> if :: flight -> flying[s]++ :: else -> ready[s]++ fi fi } }
bit flight;                                 /* a batch is on its way */

proctype Session(byte s) { byte sent;
  do
  :: sent == M -> break
  :: sent < M ->
     lock(s);
#if MUTANT == 1
     atomic { used < P -> used++ };
     answer(s); release_ready(s, 1);
     atomic { used--; if :: HELD(s) && !has[s] -> has[s] = 1; used++ :: else fi; sent++ }; unlock(s)
#else
     atomic { if :: has[s] && MUTANT != 4 -> wants[s] = 0
                 :: else -> if :: given[s] -> given[s] = 0; wants[s] = 0; has[s] = 1
                               :: !given[s] && used < P && !wants[s] -> used++; has[s] = 1
                               :: else -> wants[s] = 1; assert(!has[s]) fi fi };
     if :: !wants[s] -> answer(s); release_ready(s, 1); sent++; unlock(s)
        :: else -> unlock(s);
           do :: release(s);
                 if :: atomic { dropped[s] -> goto over } :: else fi;
                 if :: atomic { !wants[s] || given[s] -> break } :: else fi;
                 at[s] = 4; atomic { token[s] -> token[s] = 0; at[s] = 0 } od
     fi
#endif
  od;
  do :: release(s); if :: !HELD(s) || dropped[s] -> break :: else fi;
        at[s] = 5; atomic { token[s] -> token[s] = 0; at[s] = 0 } od;
over: lock(s);
  atomic { later[s] = 0; flying[s] = 0; ready[s] = 0; taken[s] = 0; note_held(s); wants[s] = 0;
           if :: given[s] && MUTANT != 3 -> given[s] = 0; hand_on(s) :: else fi; unlock(s); at[s] = 2 } }

#ifdef DEAF
proctype Rests(byte s) { do :: atomic { rest[s] -> rest[s] = 0 }; release(s); token[s] = 1 od }
proctype Fall() { byte s; do :: s < N -> if :: deaf[s] = 1 :: skip fi; s++ :: else -> break od }
#endif

proctype Flusher() { byte s;
  do :: atomic { dirty -> dirty = 0; flight = 1; s = 0; do :: s < N -> flying[s] = later[s] + flying[s]; later[s] = 0; s++ :: else -> break od };
        atomic { flight = 0; s = 0; do :: s < N -> ready[s] = ready[s] + flying[s]; flying[s] = 0; s++ :: else -> break od; s = 0 };
        do :: s < N ->
              missed[s] = 1;
              do :: atomic { missed[s] && lk[s] == 0 -> lk[s] = _pid + 1 }; release_ready(s, 0); unlock(s);
                    if :: rest[s] -> break :: else fi
                 :: atomic { !missed[s] || lk[s] != 0 -> break } od;
              token[s] = 1; s++
           :: else -> break od od }

proctype Others() { do :: atomic { !dirty -> dirty = 1 } :: break od }
#ifdef DROP
proctype Dropper() { atomic { dropped[0] = 1; token[0] = 1 } }
#endif

init { byte s;
  atomic { do :: s < N -> run Session(s);
#ifdef DEAF
              run Rests(s);
#endif
              s++ :: else -> break od; run Flusher(); run Others();
#ifdef DEAF
    run Fall();
#endif
#ifdef DROP
    run Dropper();
#endif
  };
  timeout;
  atomic { byte holding = 0; s = 0;
    do :: s < N -> if :: deaf[s] && (has[s] || given[s]) -> holding++ :: else fi; s++ :: else -> break od;
    s = 0;
    do :: s < N ->
          if :: deaf[s] :: else ->
             assert(taken[s] == 0 && ready[s] == 0);                 /* what is durable is written */
             assert(at[s] == 2 || (at[s] == 4 && holding >= P && !dropped[s])) fi;
          s++
       :: else -> break od } }
