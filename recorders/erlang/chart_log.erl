%% Writes logs from what recorders have seen: names processes, finds each receive's send, and numbers messages.
-module(chart_log).

-export([write/4]).

%% A chart has so many instances at most.
-define(MOST_PROCESSES, 32).
%% These serve the code of every program, and nothing of the program's own protocol.
-define(LEFT_OUT, [code_server, erl_prim_loader, user, file_server_2]).

%% What a recorder saw, with a number of its own.
-type numbered() :: {pos_integer(), chart_recorder:event()}.
%% A line of a log: who, `send`, `receive` or `arrive`, the other, the message's name, its number, what would have been
%% taken.
-type line() :: {pid(), atom(), pid(), string(), term(), [{pid(), string()}]}.

%% What numbers mean: whose send an event has, who received a send, what was called by a tag.
-record(pairs, {
    of_event = #{} :: #{integer() => integer()},
    sender = #{} :: #{integer() => pid()},
    receiver = #{} :: #{integer() => pid()},
    calls = #{} :: #{term() => string()},
    ended = #{} :: #{pid() => true},
    registered = #{} :: #{{node(), atom()} => pid()}
}).

%% Writes `NODE.log` for each recording, of these processes or of the busiest, without the recorders.
-spec write(file:name_all(), [chart_recorder:recording()], all | [atom()], [pid()]) -> ok.
write(Folder, Recordings, Chosen, Recorders) ->
    Numbered = numbered_events(Recordings),
    Pairs = paired(Recordings, Numbered),
    Lines = [{Node, ended_last(ended_once(lines_of(Events, Pairs)))} || {Node, Events} <- Numbered],
    Names = maps:without(Recorders, names(Recordings)),
    Shown = shown(Lines, Names, Chosen),
    ok = filelib:ensure_path(Folder),
    [write_log(Folder, Node, all_lines(Node, Lines), Shown) || {Node, _} <- Lines],
    report_left_out(Numbered, Lines, Shown).

%% Each event with a number of its own.
-spec numbered_events([chart_recorder:recording()]) -> [{node(), [numbered()]}].
numbered_events(Recordings) ->
    {Numbered, _} = lists:mapfoldl(
        fun(#{node := Node, events := Events}, Next) ->
            {{Node, lists:enumerate(Next, Events)}, Next + length(Events)}
        end,
        1,
        Recordings
    ),
    Numbered.

-spec paired([chart_recorder:recording()], [{node(), [numbered()]}]) -> #pairs{}.
paired(Recordings, Numbered) ->
    Events = lists:append([Events || {_, Events} <- Numbered]),
    Sends = queues([{Key, Number} || {Number, {send, _, _, Key, _}} <- Events]),
    Receives = [{Key, Number, To} || {Number, {'receive', To, _, Key, _}} <- Events],
    {Sent, _} = lists:mapfoldl(fun({Key, Number, To}, Left) -> taken(Key, {Number, To}, Left) end, Sends, Receives),
    OfReceive = maps:from_list([{Number, Send} || {{Number, _}, Send} <- Sent, Send =/= none]),
    #pairs{
        of_event = maps:merge(OfReceive, arrivals(Events, OfReceive)),
        sender = maps:from_list([{Number, From} || {Number, {send, From, _, _, _}} <- Events]),
        receiver = maps:from_list([{Send, To} || {{_, To}, Send} <- Sent, Send =/= none]),
        calls = maps:from_list([{Tag, Name} || {_, {send, _, _, _, {call, Tag, Name}}} <- Events]),
        ended = maps:from_list([{Process, true} || {_, {exit, Process}} <- Events]),
        registered = registered(Recordings)
    }.

-spec registered([chart_recorder:recording()]) -> #{{node(), atom()} => pid()}.
registered(Recordings) ->
    maps:from_list([
        {{Node, Name}, Process}
     || #{node := Node, names := Names} <- Recordings, {Process, Name} <- maps:to_list(Names), is_atom(Name)
    ]).

%% What has one key, in order.
-spec queues([{term(), term()}]) -> #{term() => [term()]}.
queues(Pairs) -> maps:groups_from_list(fun({Key, _}) -> Key end, fun({_, Value}) -> Value end, Pairs).

%% The first that is left of a key.
-spec taken(term(), term(), #{term() => [term()]}) -> {{term(), term()}, #{term() => [term()]}}.
taken(Key, Who, Left) ->
    case Left of
        #{Key := [First | Others]} -> {{Who, First}, Left#{Key := Others}};
        _ -> {{Who, none}, Left}
    end.

%% The sends of arrivals. An arrival has no number, and of a message from another node no sender. Equal messages are
%% received in the order in which they arrived.
-spec arrivals([numbered()], #{integer() => integer()}) -> #{integer() => integer()}.
arrivals(Events, OfReceive) ->
    Received = queues([
        {{To, sender_here(From, To), Digest}, maps:get(Number, OfReceive)}
     || {Number, {'receive', To, From, {_, _, Digest}, _}} <- Events, is_map_key(Number, OfReceive)
    ]),
    Arrived = [{{To, From, Digest}, Number} || {Number, {arrive, To, From, Digest, _}} <- Events],
    {Found, _} = lists:mapfoldl(fun({Key, Number}, Left) -> taken(Key, Number, Left) end, Received, Arrived),
    maps:from_list([{Number, Send} || {Number, Send} <- Found, Send =/= none]).

-spec sender_here(pid(), pid()) -> pid() | undefined.
sender_here(From, To) when node(From) =:= node(To) -> From;
sender_here(_, _) -> undefined.

%% The lines of a node's events. What has no receiver that is known, or no send, is left out.
-spec lines_of([numbered()], #pairs{}) -> [line()].
lines_of(Events, Pairs) -> lists:flatmap(fun({Number, Event}) -> lines(Event, Number, Pairs) end, Events).

-spec lines(chart_recorder:event(), integer(), #pairs{}) -> [line()].
lines({send, _, _, _, {ended, _}}, Number, #pairs{receiver = Receiver}) when not is_map_key(Number, Receiver) ->
    [];
lines({send, From, To, _, What}, Number, Pairs) ->
    [{From, send, Receiver, name(What, Pairs), Number, []} || Receiver <- receivers(From, To, Number, Pairs)];
lines({'receive', To, From, _, What}, Number, #pairs{of_event = OfEvent} = Pairs) ->
    Takes = takes(From, What, Pairs),
    [{To, 'receive', From, name(What, Pairs), Send, Takes} || #{Number := Send} <- [OfEvent]];
lines({arrive, To, _, _, What}, Number, #pairs{of_event = OfEvent, sender = Sender} = Pairs) ->
    case OfEvent of
        #{Number := Send} -> [{To, arrive, maps:get(Send, Sender), name(What, Pairs), Send, []}];
        _ -> ending(To, What, Number, Pairs)
    end;
lines(_, _, _) ->
    [].

%% That a process has ended has no send of its own. It is received when it arrives.
-spec ending(pid(), chart_recorder:what(), integer(), #pairs{}) -> [line()].
ending(To, {ended, Process}, Number, #pairs{ended = Ended}) when is_map_key(Process, Ended) ->
    [{To, 'receive', Process, "down", {ended, Number}, []}];
ending(_, _, _, _) ->
    [].

%% Whoever watches a process several times hears of its end as often, and takes it out once.
-spec ended_once([line()]) -> [line()].
ended_once(Lines) ->
    lists:uniq(
        fun
            ({To, 'receive', Process, Name, {ended, _}, _}) -> {To, Process, Name};
            (Line) -> Line
        end,
        Lines
    ).

%% An end comes behind all that its process sent. Where some of that was still in the mailbox when the end arrived, the end
%% is received behind the last of it.
-spec ended_last([line()]) -> [line()].
ended_last(Lines) ->
    Left = maps:map(fun(_, Each) -> length(Each) end, queues([{key_of_receive(Line), Line} || Line <- Lines])),
    {Moved, _} = lists:mapfoldl(fun in_turn/2, {Left, #{}}, Lines),
    lists:append(Moved).

%% The line, with the end that waited for it, or nothing where it is an end that waits.
-spec in_turn(line(), {#{term() => integer()}, #{term() => line()}}) ->
    {[line()], {#{term() => integer()}, #{term() => line()}}}.
in_turn({To, 'receive', Process, _, {ended, _}, _} = Line, {Left, Waiting}) ->
    case Left of
        #{{To, Process} := Count} when Count > 0 -> {[], {Left, Waiting#{{To, Process} => Line}}};
        _ -> {[Line], {Left, Waiting}}
    end;
in_turn(Line, {Left, Waiting}) ->
    Key = key_of_receive(Line),
    Count = maps:get(Key, Left) - 1,
    case Waiting of
        #{Key := End} when Count =:= 0 -> {[Line, End], {Left#{Key := Count}, Waiting}};
        _ -> {[Line], {Left#{Key := Count}, Waiting}}
    end.

%% Who received from whom; nothing of the kind for other lines, and for ends.
-spec key_of_receive(line()) -> {pid(), pid()} | none.
key_of_receive({_, 'receive', _, _, {ended, _}, _}) -> none;
key_of_receive({To, 'receive', From, _, _, _}) -> {To, From};
key_of_receive(_) -> none.

%% Who received a send, or else whom it named.
-spec receivers(pid(), term(), integer(), #pairs{}) -> [pid()].
receivers(From, To, Number, #pairs{receiver = Receiver, registered = Registered}) ->
    Named = named(From, To),
    case {Receiver, Registered} of
        {#{Number := Process}, _} -> [Process];
        {_, #{Named := Process}} -> [Process];
        _ -> [To || is_pid(To)]
    end.

-spec named(pid(), term()) -> {node(), atom()} | none.
named(From, Name) when is_atom(Name) -> {node(From), Name};
named(_, {Name, Node}) when is_atom(Name) -> {Node, Name};
named(_, _) -> none.

-spec name(chart_recorder:what(), #pairs{}) -> string().
name({call, _, Name}, _) -> Name;
name({plain, Name}, _) -> Name;
name({ended, _}, _) -> "down";
name(spawn, _) -> "spawn";
name({reply, Tag, Name}, #pairs{calls = Calls}) -> "re_" ++ maps:get(Tag, Calls, Name).

%% Whoever made a call waits for its answer alone, or for the end of whom it called. A process begins by its spawn.
-spec takes(pid(), chart_recorder:what(), #pairs{}) -> [{pid(), string()}].
takes(From, {reply, Tag, _}, #pairs{calls = Calls}) when is_map_key(Tag, Calls) ->
    [{From, "re_" ++ maps:get(Tag, Calls)}, {From, "down"}];
takes(From, spawn, _) ->
    [{From, "spawn"}];
takes(_, _, _) ->
    [].

%% A node's own lines, and then what its processes sent when they ended.
-spec all_lines(node(), [{node(), [line()]}]) -> [line()].
all_lines(Node, Lines) ->
    Endings = [
        {Process, send, To, Name, Id, []}
     || {_, Others} <- Lines, {To, 'receive', Process, Name, {ended, _} = Id, _} <- Others, node(Process) =:= Node
    ],
    proplists:get_value(Node, Lines) ++ Endings.

%% The processes whose lines are written, with their names.
-spec shown([{node(), [line()]}], #{pid() => string()}, all | [atom()]) -> #{pid() => string()}.
shown(Lines, Names, all) ->
    LeftOut = [atom_to_list(Name) || Name <- ?LEFT_OUT],
    Counts = lists:foldl(fun count/2, #{}, [Line || {_, Of} <- Lines, Line <- Of, element(2, Line) =/= arrive]),
    Busiest = lists:reverse(lists:keysort(2, maps:to_list(Counts))),
    Known = [Process || {Process, _} <- Busiest, #{Process := Name} <- [Names], not ends_in(Name, LeftOut)],
    maps:with(lists:sublist(Known, ?MOST_PROCESSES), Names);
shown(_, Names, Chosen) ->
    Words = [atom_to_list(Name) || Name <- Chosen],
    maps:filter(fun(_, Name) -> lists:member(Name, Words) end, Names).

%% Whether a name is one of these, with its node's name before it or not.
-spec ends_in(string(), [string()]) -> boolean().
ends_in(Name, Words) -> lists:any(fun(Word) -> lists:suffix(Word, Name) end, Words).

-spec count(line(), #{pid() => pos_integer()}) -> #{pid() => pos_integer()}.
count(Line, Counts) -> maps:update_with(element(1, Line), fun(Count) -> Count + 1 end, 1, Counts).

-spec write_log(file:name_all(), node(), [line()], #{pid() => string()}) -> ok.
write_log(Folder, Node, Lines, Shown) ->
    Text = [text(Line, Shown) || Line <- Lines, is_shown(Line, Shown)],
    ok = file:write_file(filename:join(Folder, node_word(Node) ++ ".log"), Text).

-spec is_shown(line(), #{pid() => string()}) -> boolean().
is_shown({Process, _, Other, _, _, _}, Shown) -> is_map_key(Process, Shown) andalso is_map_key(Other, Shown).

-spec text(line(), #{pid() => string()}) -> iolist().
text({Process, Word, Other, Name, Id, Takes}, Shown) ->
    Patterns = [[" takes=", maps:get(From, Shown), ":", Taken] || {From, Taken} <- Takes],
    Words = [maps:get(Process, Shown), atom_to_list(Word), maps:get(Other, Shown), Name, id_word(Id)],
    [lists:join(" ", Words), Patterns, "\n"].

-spec id_word(term()) -> string().
id_word({ended, Number}) -> "ended_" ++ integer_to_list(Number);
id_word(Number) -> integer_to_list(Number).

-spec report_left_out([{node(), [numbered()]}], [{node(), [line()]}], #{pid() => string()}) -> ok.
report_left_out(Numbered, Lines, Shown) ->
    Sends = length([Event || {_, Events} <- Numbered, {_, Event} <- Events, element(1, Event) =:= send]),
    Known = [Line || {_, Of} <- Lines, Line <- Of],
    Written = length([Line || Line <- Known, is_shown(Line, Shown)]),
    Named = length([Number || {_, send, _, _, Number, _} <- Known, is_integer(Number)]),
    io:format("~b lines are written, and ~b of other processes are left out~n", [Written, length(Known) - Written]),
    [io:format("~b sends to an alias or a name that nobody received are left out~n", [Sends - Named]) || Sends > Named],
    ok.

%% ---------------------------------------------------------------------------------------------------------------------
%% What a process is called

%% The names of all processes: the registered one, else that of the first call with a number.
-spec names([chart_recorder:recording()]) -> #{pid() => string()}.
names(Recordings) ->
    Many = length(Recordings) > 1,
    {Names, _} = lists:foldl(
        fun({Process, Name}, {Names, Counts}) ->
            {Word, Later} = numbered(prefix(Many, Process) ++ word(Name), Name, Counts),
            {Names#{Process => Word}, Later}
        end,
        {#{}, #{}},
        first_names(Recordings)
    ),
    Names.

-spec prefix(boolean(), pid()) -> string().
prefix(false, _) -> "";
prefix(true, Process) -> node_word(node(Process)) ++ "_".

-spec node_word(node()) -> string().
node_word(Node) -> chart_recorder:spelled(hd(string:split(atom_to_list(Node), "@"))).

-spec word(atom() | chart_recorder:mfa_words()) -> string().
word(Name) when is_atom(Name) -> chart_recorder:spelled(atom_to_list(Name));
word({erlang, apply, [Function, _]}) when is_function(Function) ->
    {module, Module} = erlang:fun_info(Function, module),
    word(Module);
word({proc_lib, init_p, [_, _, Module | _]}) when is_atom(Module) -> word(Module);
word({proc_lib, _, _}) -> "process";
word({Module, _, _}) -> word(Module).

-spec numbered(string(), atom() | chart_recorder:mfa_words(), map()) -> {string(), map()}.
numbered(Word, Name, Counts) when is_atom(Name) -> {Word, Counts};
numbered(Word, _, Counts) ->
    Count = maps:get(Word, Counts, 0) + 1,
    {Word ++ "_" ++ integer_to_list(Count), Counts#{Word => Count}}.

%% Each process once, in the order in which they were seen, with the best of what is known.
-spec first_names([chart_recorder:recording()]) -> [{pid(), atom() | chart_recorder:mfa_words()}].
first_names(Recordings) ->
    Events = lists:append([Events || #{events := Events} <- Recordings]),
    Begun = maps:from_list([{Child, Begins} || {begun, Child, Begins} <- Events]),
    Here = lists:foldl(fun(#{names := Names}, Known) -> maps:merge(Known, Names) end, Begun, Recordings),
    Registered = maps:from_list(lists:reverse([{Process, Name} || {register, Process, Name} <- Events])),
    Known = maps:merge(Here, Registered),
    Seen = lists:uniq([element(2, Event) || Event <- Events]),
    [{Process, maps:get(Process, Known, {process, unknown, 0})} || Process <- Seen].
