%% A lock that three clients ask for by messages. Who has it first is up to the order of arrival.
-module(lock_server).

-export([main/0]).

-spec main() -> ok.
main() ->
    Server = spawn(fun() -> free(3) end),
    register(lock, Server),
    Watches = [begin_client(Name, Server) || Name <- [anna, bert, cleo]],
    [receive {'DOWN', Watch, process, _, _} -> ok end || Watch <- Watches],
    ok.

-spec begin_client(atom(), pid()) -> reference().
begin_client(Name, Server) ->
    {Client, Watch} = spawn_monitor(fun() -> receive go -> client(Server) end end),
    register(Name, Client),
    Client ! go,
    Watch.

%% Nobody has the lock, and so many clients still come for it.
-spec free(non_neg_integer()) -> ok.
free(0) ->
    ok;
free(Left) ->
    receive
        {ask, Client} ->
            Client ! granted,
            held(Client, Left - 1)
    end.

-spec held(pid(), non_neg_integer()) -> ok.
held(Client, Left) ->
    receive
        {unlock, Client} -> free(Left)
    end.

-spec client(pid()) -> ok.
client(Server) ->
    Server ! {ask, self()},
    receive
        granted -> Server ! {unlock, self()}
    end,
    ok.
