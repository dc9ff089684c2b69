%% Records which process sent what to which, and in which order each process received, for a message sequence chart.
%%
%% The program isn't changed. `start` begins on this node, or on all nodes that are named; `stop` writes a log for each
%% node into a folder. In a log stand the sends and receives of each process in its own order, and when each message
%% arrived in its mailbox. Messages of timers and ports, and what processes exchange by tables, aren't seen.
-module(chart_recorder).

-export([start/0, start/1, stop/1, stop/2, run/4]).
-export([record/1, spelled/1]).
-export_type([what/0, event/0, mfa_words/0, recording/0]).

-type what() :: {call, term(), string()} | {reply, term(), string()} | {ended, pid()} | spawn | {plain, string()}.
-type event() ::
    {send, pid(), term(), key(), what()}
    | {'receive', pid(), pid(), key(), what()}
    | {arrive, pid(), pid() | undefined, integer(), what()}
    | {begun, pid(), mfa_words()}
    | {register, pid(), atom()}
    | {exit, pid()}.
%% The sender, the count of its token, and a digest of the message. One of these alone comes twice: counts repeat.
-type key() :: {pid(), integer(), integer()}.
-type mfa_words() :: {module(), atom(), list() | arity()}.
-type recording() :: #{node := node(), events := [event()], names := #{pid() => atom() | mfa_words()}}.

%% ---------------------------------------------------------------------------------------------------------------------
%% From the outside

-spec start() -> ok.
start() -> start([node()]).

%% Records on these nodes, which have to be connected. Recording ends with `stop` alone.
-spec start([node()]) -> ok.
start(Nodes) ->
    {Module, Code, File} = code:get_object_code(?MODULE),
    Others = Nodes -- [node()],
    [{module, _} = rpc:call(Node, code, load_binary, [Module, File, Code]) || Node <- Others],
    Recorders = [{Node, spawn_recorder(Node)} || Node <- Nodes],
    persistent_term:put(?MODULE, Recorders),
    [ask(Recorder, begin_recording) || {_, Recorder} <- Recorders],
    ok.

-spec stop(file:name_all()) -> ok.
stop(Folder) -> stop(Folder, all).

%% Writes `NODE.log` for each node, of these processes by name, or of the 32 that sent and received most. What had to be
%% left out is reported.
-spec stop(file:name_all(), all | [atom()]) -> ok.
stop(Folder, Chosen) ->
    Recorders = persistent_term:get(?MODULE),
    persistent_term:erase(?MODULE),
    [ask(Recorder, end_recording) || {_, Recorder} <- Recorders],
    Recordings = [ask(Recorder, hand_over) || {_, Recorder} <- Recorders],
    chart_log:write(Folder, Recordings, Chosen, [Recorder || {_, Recorder} <- Recorders]).

%% Records this node while a function runs.
-spec run(file:name_all(), module(), atom(), [term()]) -> term().
run(Folder, Module, Function, Arguments) ->
    start(),
    try
        apply(Module, Function, Arguments)
    after
        stop(Folder)
    end.

%% ---------------------------------------------------------------------------------------------------------------------
%% The recorder of a node

-spec spawn_recorder(node()) -> pid().
spawn_recorder(Node) -> spawn(Node, ?MODULE, record, [[]]).

-spec ask(pid(), atom()) -> term().
ask(Recorder, Request) ->
    Watch = monitor(process, Recorder),
    Recorder ! {?MODULE, Request, self()},
    receive
        {?MODULE, Recorder, Answer} ->
            demonitor(Watch, [flush]),
            Answer;
        {'DOWN', Watch, process, Recorder, Reason} ->
            error({recorder_ended, Reason})
    end.

%% Keeps what it receives, the newest first.
-spec record([event()]) -> ok.
record(Events) ->
    receive
        {seq_trace, _, Reported} ->
            record(with(seen_by_token(Reported), Events));
        {?MODULE, begin_recording, From} ->
            begin_recording(),
            From ! {?MODULE, self(), ok},
            record(Events);
        {?MODULE, end_recording, From} ->
            end_recording(),
            From ! {?MODULE, self(), ok},
            record(Events);
        {?MODULE, hand_over, From} ->
            From ! {?MODULE, self(), #{node => node(), events => lists:reverse(Events), names => names_here()}},
            ok;
        Reported when element(1, Reported) =:= trace ->
            record(with(seen_by_trace(Reported), Events))
    end.

-spec with(event() | nothing, [event()]) -> [event()].
with(nothing, Events) -> Events;
with(Event, Events) -> [Event | Events].

%% A message without a token takes its receiver's away. So the token isn't given once, but by each send and each spawn,
%% before it.
-spec begin_recording() -> ok.
begin_recording() ->
    Token = [{set_seq_token, send, true}, {set_seq_token, 'receive', true}, {message, false}],
    _ = seq_trace:set_system_tracer(self()),
    _ = erlang:trace_pattern(send, [{'_', [], Token}], []),
    _ = erlang:trace_pattern('receive', [{['_', '$1', '_'], [], [{message, '$1'}]}], []),
    [erlang:trace_pattern({erlang, Spawn, '_'}, [{'_', [], Token}], []) || Spawn <- spawns()],
    _ = erlang:trace(all, true, [send, 'receive', call, procs, set_on_spawn, {tracer, self()}]),
    ok.

-spec spawns() -> [atom()].
spawns() -> [spawn, spawn_link, spawn_monitor, spawn_opt, spawn_request].

-spec end_recording() -> ok.
end_recording() ->
    Ref = erlang:trace_delivered(all),
    receive
        {trace_delivered, all, Ref} -> ok
    end,
    _ = erlang:trace(all, false, [all]),
    _ = erlang:trace_pattern(send, true, []),
    _ = erlang:trace_pattern('receive', true, []),
    [erlang:trace_pattern({erlang, Spawn, '_'}, false, []) || Spawn <- spawns()],
    _ = seq_trace:set_system_tracer(false),
    seq_trace:reset_trace(),
    ok.

%% A send, or a receive when the process really took the message out of its mailbox.
-spec seen_by_token(tuple()) -> event() | nothing.
seen_by_token({_, _, _, _, Message}) when element(1, Message) =:= spawn_reply ->
    nothing;
seen_by_token({send, {_, Count}, From, To, Message}) when is_pid(From) ->
    case is_list(Message) andalso lists:member(To, nodes()) of
        %% (the arguments of a spawn on another node, which has a message of its own)
        true -> nothing;
        false -> {send, From, To, {From, Count, erlang:phash2(Message)}, what(Message)}
    end;
seen_by_token({'receive', {_, Count}, From, To, Message}) when is_pid(From), is_pid(To) ->
    {'receive', To, From, {From, Count, erlang:phash2(Message)}, what(Message)};
seen_by_token(_) ->
    nothing.

-spec seen_by_trace(tuple()) -> event() | nothing.
seen_by_trace({trace, To, 'receive', Message, From}) when is_pid(From) ->
    {arrive, To, From, erlang:phash2(Message), what(Message)};
seen_by_trace({trace, To, 'receive', Message, _}) ->
    {arrive, To, undefined, erlang:phash2(Message), what(Message)};
seen_by_trace({trace, Child, spawned, _, Begins}) ->
    {begun, Child, Begins};
seen_by_trace({trace, Process, register, Name}) ->
    {register, Process, Name};
seen_by_trace({trace, Process, exit, _}) ->
    {exit, Process};
seen_by_trace(_) ->
    nothing.

%% ---------------------------------------------------------------------------------------------------------------------
%% What a message is called

-spec what(term()) -> what().
what({'$gen_call', {_, Tag}, Request}) -> {call, Tag, words(Request)};
what({'$gen_cast', Request}) -> {plain, words(Request)};
what({[alias | _] = Tag, Answer}) -> {reply, Tag, words(Answer)};
what({Tag, Answer}) when is_reference(Tag) -> {reply, Tag, words(Answer)};
what({'DOWN', _, process, Process, _}) when is_pid(Process) -> {ended, Process};
what(Message) when element(1, Message) =:= spawn_request -> spawn;
what({'EXIT', Process, _}) when is_pid(Process) -> {ended, Process};
what(Message) -> {plain, words(Message)}.

%% Up to two of its atoms, from the left.
-spec words(term()) -> string().
words(Message) ->
    case lists:sublist(atoms(Message), 2) of
        [] -> "message";
        Atoms -> spelled(lists:flatten(lists:join("_", [atom_to_list(Atom) || Atom <- Atoms])))
    end.

-spec atoms(term()) -> [atom()].
atoms(Atom) when is_atom(Atom) -> [Atom];
atoms(Tuple) when is_tuple(Tuple) -> lists:flatmap(fun atoms/1, lists:sublist(tuple_to_list(Tuple), 4));
atoms([First | _]) -> atoms(First);
atoms(_) -> [].

%% Letters, digits and `_` alone.
-spec spelled(string()) -> string().
spelled(Word) ->
    case string:trim(re:replace(Word, "[^A-Za-z0-9_]+", "_", [global, {return, list}]), both, "_") of
        [] -> "message";
        Name -> Name
    end.

%% ---------------------------------------------------------------------------------------------------------------------
%% What a process is called

-spec names_here() -> #{pid() => atom() | mfa_words()}.
names_here() ->
    maps:from_list([{Process, name_here(Process)} || Process <- processes(), Process =/= self()]).

-spec name_here(pid()) -> atom() | mfa_words().
name_here(Process) ->
    case process_info(Process, registered_name) of
        {registered_name, Name} -> Name;
        _ -> initial_call(Process)
    end.

-spec initial_call(pid()) -> mfa_words().
initial_call(Process) ->
    try proc_lib:translate_initial_call(Process)
    catch _:_ -> {process, ended, 0}
    end.
