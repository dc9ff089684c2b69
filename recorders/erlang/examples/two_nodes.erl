%% Programs on two nodes of this machine: who gets a lock of mnesia first, who wins a name of `global`, and messages to a
%% group of `pg`. Nodes talk over the loopback alone.
-module(two_nodes).

-export([main/2]).
-export([add/1, claim/1, join/1]).

%% Records one of the three into a folder.
-spec main(file:name_all(), mnesia | global | pg) -> ok.
main(Folder, Program) ->
    {ok, Peer, Other} = begin_node(),
    prepare(Program, Other),
    chart_recorder:start([node(), Other]),
    try
        run(Program, Other)
    after
        chart_recorder:stop(Folder),
        peer:stop(Peer)
    end.

-spec begin_node() -> {ok, pid(), node()}.
begin_node() ->
    Paths = lists:append([["-pa", Path] || Path <- code:get_path()]),
    Loopback = ["-kernel", "inet_dist_use_interface", "{127,0,0,1}"],
    peer:start_link(#{name => right, host => "127.0.0.1", wait_boot => 60000, args => Loopback ++ Paths}).

-spec prepare(atom(), node()) -> ok.
prepare(mnesia, Other) ->
    ok = mnesia:start(),
    ok = rpc:call(Other, mnesia, start, []),
    {ok, [Other]} = mnesia:change_config(extra_db_nodes, [Other]),
    {atomic, ok} = mnesia:create_table(account, [{ram_copies, [node(), Other]}]),
    {atomic, ok} = mnesia:transaction(fun() -> mnesia:write({account, anna, 0}) end),
    ok;
prepare(global, _) ->
    ok = global:sync();
prepare(pg, Other) ->
    {ok, _} = pg:start(friends),
    {ok, _} = rpc:call(Other, pg, start, [friends]),
    ok.

%% One process on each node does its part, and informs this one.
-spec run(atom(), node()) -> ok.
run(Program, Other) ->
    Part = maps:get(Program, #{mnesia => add, global => claim, pg => join}),
    register(first, self()),
    Parts = [spawn(Node, ?MODULE, Part, [self()]) || Node <- [node(), Other]],
    Reported = [receive {done, What} -> What end || _ <- [1, 2]],
    Program =/= global orelse [Claimer ! stop || Claimer <- Parts],
    unregister(first),
    check(Program, lists:sort(Reported)).

-spec check(atom(), [term()]) -> ok.
check(mnesia, _) ->
    {atomic, [{account, anna, 2}]} = mnesia:transaction(fun() -> mnesia:read(account, anna) end),
    ok;
check(global, [no, yes]) -> ok;
check(pg, [hello, hello]) -> ok.

-spec add(pid()) -> term().
add(First) ->
    register(adder, self()),
    {atomic, ok} = mnesia:transaction(fun() ->
        [{account, Name, Many}] = mnesia:read(account, anna, write),
        mnesia:write({account, Name, Many + 1})
    end),
    First ! {done, added}.

-spec claim(pid()) -> term().
claim(First) ->
    register(claimer, self()),
    First ! {done, global:register_name(leader, self())},
    receive stop -> ok end.

-spec join(pid()) -> term().
join(First) ->
    register(friend, self()),
    ok = pg:join(friends, all, self()),
    both_are_there(),
    [Friend ! hello || Friend <- pg:get_members(friends, all), Friend =/= self()],
    receive
        hello -> First ! {done, hello}
    end.

%% `pg` informs other nodes later.
-spec both_are_there() -> ok.
both_are_there() ->
    case pg:get_members(friends, all) of
        [_, _] -> ok;
        _ -> timer:sleep(5), both_are_there()
    end.
