% The transition rules of source document 002, in the order of document 01, and the counted search over them.
% run(Term, Records) prints the number of states entered.

join(done, W, W).
join(withdrawn, done, withdrawn).
join(withdrawn, withdrawn, withdrawn).
join(withdrawn, failed, failed).
join(failed, _, failed).

closing(done).
closing(withdrawn).
closing(failed).

ends(P, W) :- \+ \+ end(P, W).

end(skip, done).
end(throw, failed).
end(yield, done).
end(yield, withdrawn).
end(seq(P, _), W) :- end(P, W), W \== done.
end(seq(P, Q), W) :- ends(P, done), end(Q, W).
end(hnd(P, _), W) :- end(P, W), W \== failed.
end(hnd(P, Q), W) :- ends(P, failed), end(Q, W).
end(alt(P, _), W) :- end(P, W).
end(alt(_, Q), W) :- end(Q, W).
end(par(P, Q), U) :- end(P, W), end(Q, V), join(W, V, U).
end(blk(PP), done) :- \+ \+ cend(PP, done, _).
end(blk(PP), W) :- cend(PP, failed, K), end(K, W).

cend(pair(P, Q), done, Q) :- ends(P, done).
cend(pair(P, _), W, skip) :- W \== done, ends(P, W).
cend(cseq(PP, _), W, K) :- W \== done, cend(PP, W, K).
cend(cseq(PP, QQ), W, seq(L, K)) :- cend(PP, done, K), cend(QQ, W, L).
cend(held(QQ, K), W, seq(L, K)) :- cend(QQ, W, L).
cend(calt(PP, _), W, K) :- cend(PP, W, K).
cend(calt(_, QQ), W, K) :- cend(QQ, W, K).
cend(cpar(PP, QQ), U, par(K, L)) :- closing(W), cend(PP, W, K), closing(V), join(W, V, U), cend(QQ, V, L).

step(ev(A), A, skip).
step(seq(P, Q), A, seq(P1, Q)) :- step(P, A, P1).
step(seq(P, Q), A, Q1) :- ends(P, done), step(Q, A, Q1).
step(hnd(P, Q), A, hnd(P1, Q)) :- step(P, A, P1).
step(hnd(P, Q), A, Q1) :- ends(P, failed), step(Q, A, Q1).
step(alt(P, _), A, P1) :- step(P, A, P1).
step(alt(_, Q), A, Q1) :- step(Q, A, Q1).
step(par(P, Q), A, par(P1, Q)) :- step(P, A, P1).
step(par(P, Q), A, par(P, Q1)) :- step(Q, A, Q1).
step(blk(PP), A, blk(PP1)) :- cstep(PP, A, PP1).
step(blk(PP), A, K1) :- cend(PP, failed, K), step(K, A, K1).

cstep(pair(P, Q), A, pair(P1, Q)) :- step(P, A, P1).
cstep(cseq(PP, QQ), A, cseq(PP1, QQ)) :- cstep(PP, A, PP1).
cstep(cseq(PP, QQ), A, held(QQ1, K)) :- cend(PP, done, K), cstep(QQ, A, QQ1).
cstep(held(QQ, K), A, held(QQ1, K)) :- cstep(QQ, A, QQ1).
cstep(calt(PP, _), A, PP1) :- cstep(PP, A, PP1).
cstep(calt(_, QQ), A, QQ1) :- cstep(QQ, A, QQ1).
cstep(cpar(PP, QQ), A, cpar(PP1, QQ)) :- cstep(PP, A, PP1).
cstep(cpar(PP, QQ), A, cpar(PP, QQ1)) :- cstep(QQ, A, QQ1).

next(std(P), event(A), std(P1)) :- step(P, A, P1).
next(std(P), close(W), over) :- ends(P, W).
next(cmp(P), event(A), cmp(P1)) :- cstep(P, A, P1).
next(cmp(P), close(W), std(K)) :- cend(P, W, K).

visit(State, Records) :-
    flag(entered, N, N + 1),
    on(Records, State).

on([], over).
on([R | Rs], State) :- next(State, R, State1), visit(State1, Rs).

run(State, Records) :-
    flag(entered, _, 0),
    statistics(cputime, T0),
    ( visit(State, Records) -> Word = accepted ; Word = rejected ),
    statistics(cputime, T1),
    flag(entered, N, N),
    T is T1 - T0,
    format("~w ~w ~6f~n", [Word, N, T]).
