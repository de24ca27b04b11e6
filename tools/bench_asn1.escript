#!/usr/bin/env escript
%% Measures Erlang's asn1 for tools/bench.py: compiles the module M of the folder, and decodes or encodes each line of hex of a file as T.
%% Prints the processor seconds of these calls alone, without reading, printing and the compiler. Nothing here is proved.
%% Usage: bench_asn1.escript FOLDER encode|decode FILE

-mode(compile).

main([Folder, Word, File]) ->
    ok = file:set_cwd(Folder),
    ok = asn1ct:compile("M", [per, {outdir, Folder}]),
    {ok, Text} = file:read_file(File),
    Octets = [binary:decode_hex(Line) || Line <- binary:split(Text, <<"\n">>, [global, trim_all])],
    Values = [decode(O) || O <- Octets],
    erlang:garbage_collect(),
    {Begin, _} = erlang:statistics(runtime),
    case Word of
        "decode" -> lists:foreach(fun decode/1, Octets);
        "encode" -> lists:foreach(fun({O, V}) -> {ok, O} = 'M':encode('T', V) end, lists:zip(Octets, Values))
    end,
    {End, _} = erlang:statistics(runtime),
    io:format("~.3f~n", [(End - Begin) / 1000]).

decode(Octets) ->
    {ok, Value} = 'M':decode('T', Octets),
    Value.
