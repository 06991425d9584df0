# The packages of this folder as content-addressed derivations of Nix. Each has the arguments and the environment of its
# description, and the same builder, which `in_nix` runs. `folder` has the sources, as text.
{ folder }:
let
  package = name:
    let
      described = builtins.fromTOML (builtins.readFile (./. + "/${name}.toml"));
      source = builtins.path { path = folder + "/${name}"; name = "${name}-source"; };
      inputs = described.inputs or [ ];
      named = map (input: "{path ${input}}") ([ "${name}-source" ] ++ inputs);
      paths = [ "${source}" ] ++ map (input: "${package input}") inputs;
    in
    derivation (described.environment // {
      inherit name;
      system = builtins.currentSystem;
      builder = toString ./in_nix;
      args = [ (toString ../../examples/builders + "/${described.builder}") ]
        ++ map (builtins.replaceStrings named paths) described.arguments;
      __contentAddressed = true;
      outputHashMode = "recursive";
      outputHashAlgo = "sha256";
    });
in
builtins.listToAttrs (map (name: { inherit name; value = package name; }) [ "zlib" "minizip" "lua" ])
