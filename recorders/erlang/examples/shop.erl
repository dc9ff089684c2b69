%% Three servers: two clients order, a shop asks the stock and the bank. Whose order is served first is up to the
%% order of arrival.
-module(shop).
-behaviour(gen_server).

-export([main/0]).
-export([init/1, handle_call/3, handle_cast/2]).

-spec main() -> ok.
main() ->
    [{ok, _} = gen_server:start_link({local, Name}, ?MODULE, Name, []) || Name <- [bank, stock, shop]],
    Watches = [begin_client(Name) || Name <- [anna, bert]],
    [receive {'DOWN', Watch, process, _, _} -> ok end || Watch <- Watches],
    2 = gen_server:call(bank, orders),
    [gen_server:stop(Name) || Name <- [shop, stock, bank]],
    ok.

-spec begin_client(atom()) -> reference().
begin_client(Name) ->
    {_, Watch} = spawn_monitor(fun() ->
        register(Name, self()),
        sold = gen_server:call(shop, order)
    end),
    Watch.

-spec init(atom()) -> {ok, {atom(), integer()}}.
init(Name) -> {ok, {Name, 0}}.

-spec handle_call(atom(), gen_server:from(), {atom(), integer()}) -> {reply, term(), {atom(), integer()}}.
handle_call(order, _, {shop, Count}) ->
    taken = gen_server:call(stock, take),
    gen_server:cast(bank, pay),
    {reply, sold, {shop, Count + 1}};
handle_call(take, _, {stock, Count}) ->
    {reply, taken, {stock, Count - 1}};
handle_call(orders, _, {bank, Count}) ->
    {reply, Count, {bank, Count}}.

-spec handle_cast(pay, {bank, integer()}) -> {noreply, {bank, integer()}}.
handle_cast(pay, {bank, Count}) -> {noreply, {bank, Count + 1}}.
