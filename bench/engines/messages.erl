%% What a message between two processes costs, alone and with the recorder, by turns.
-module(messages).

-export([main/2]).

-define(ROUNDS, 5000).

%% Prints the medians of so many runs of each, in microseconds a message.
-spec main(pos_integer(), file:name_all()) -> ok.
main(Runs, Folder) ->
    {Alone, Recorded} = lists:unzip([{passed(), recorded(Folder)} || _ <- lists:seq(1, Runs)]),
    [One, Other] = [lists:nth((Runs + 1) div 2, lists:sort(Times)) || Times <- [Alone, Recorded]],
    io:format("~b runs each: ~.2f microseconds a message alone, ~.2f with the recorder~n", [Runs, One, Other]).

-spec recorded(file:name_all()) -> float().
recorded(Folder) ->
    chart_recorder:start(),
    Time = passed(),
    chart_recorder:stop(Folder),
    Time.

%% Messages to and fro.
-spec passed() -> float().
passed() ->
    Echo = spawn_link(fun echo/0),
    {Time, ok} = timer:tc(fun() -> pass(Echo, ?ROUNDS) end),
    Echo ! stop,
    Time / (2 * ?ROUNDS).

-spec pass(pid(), non_neg_integer()) -> ok.
pass(_, 0) -> ok;
pass(Echo, Left) ->
    Echo ! {ask, self()},
    receive
        answer -> pass(Echo, Left - 1)
    end.

-spec echo() -> ok.
echo() ->
    receive
        {ask, From} -> From ! answer, echo();
        stop -> ok
    end.
