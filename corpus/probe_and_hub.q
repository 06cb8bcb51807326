/*
Component 0 is in location 0. The schedule enters it at tick 0.
*/
E<> P0.L0

/*
Component 0 is in location 1. The schedule enters it at tick 5.
*/
E<> P0.L1

/*
Component 0 sends on channel 0 on edge 0. The schedule has it from tick 3 to 5.
*/
E<> P0.W0_c0

/*
Component 0 works on edge 1. The schedule has it from tick 8 to 10.
*/
E<> P0.W1

/*
Component 1 is in location 0. The schedule enters it at tick 0.
*/
E<> P1.L0

/*
Component 1 is in location 1. The schedule enters it at tick 6.
*/
E<> P1.L1

/*
Component 1 is in location 2. The schedule does not enter it before the horizon.
*/
E<> P1.L2

/*
Component 1 receives on channel 0 on edge 0. The schedule has it from tick 2 to 6.
*/
E<> P1.W0_c0

/*
Component 1 receives nothing on edge 0. The schedule does not have it before the horizon.
*/
E<> P1.W0

/*
Component 1 works on edge 1. The schedule has it from tick 9 to 10.
*/
E<> P1.W1

/*
Component 1 works on edge 2. The schedule does not have it before the horizon.
*/
E<> P1.W2

/*
Behind each state a step other than a delay can be made, now or later, also behind the horizon, which is not exported. That time goes on is not asked: steps may follow one another at one tick for ever.
Variable v0 of P1 only counts one way: once it can no more, no edge that adds to it is taken, and where no other goes on the answer is no.
*/
A[] not deadlock

