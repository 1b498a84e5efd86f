//! The header as text: what it declares and what it asserts.

/// A C source without its comments.
fn without_comments(source: &str) -> String {
    let mut pieces = source.split("/*");
    let first = pieces.next().unwrap_or_default().to_string();
    pieces.fold(first, |code, piece| code + piece.split_once("*/").expect("a comment's end").1)
}

fn between<'a>(source: &'a str, start: &str, end: &str) -> &'a str {
    let (_, rest) = source.split_once(start).expect(start);
    rest.split_once(end).expect(end).0
}

/// The declarations, without comments and blanks.
pub fn declarations(header: &str) -> String {
    let code = without_comments(header);
    let inside = between(&code, "extern \"C\" {\n#endif\n", "#ifdef __cplusplus\n}\n");
    inside.split_whitespace().collect()
}

/// The name that a declaration ends with, before the bounds of an array.
pub fn name_in_c(declaration: &str) -> &str {
    let declared = declaration.split('[').next().unwrap_or_default().trim();
    declared.rsplit([' ', '*']).next().expect("a name")
}

/// A struct, then `STRUCT FIELD` for each of its fields.
fn struct_and_fields(block: &str) -> Vec<String> {
    let (body, rest) = block.split_once('}').expect("the struct's end");
    let name = rest.split(';').next().unwrap_or_default().trim();
    let fields = body.split([';', ',']).map(name_in_c).filter(|field| !field.is_empty());
    let fields = fields.map(|field| format!("{name} {field}"));
    [name.to_string()].into_iter().chain(fields).collect()
}

/// Every struct that is declared, each followed by its fields.
pub fn declared(header: &str) -> Vec<String> {
    let code = without_comments(header);
    code.split("typedef struct {").skip(1).flat_map(struct_and_fields).collect()
}

/// The same of the lines that assert the layout.
pub fn asserted(header: &str) -> Vec<String> {
    let asserted = header.lines().filter_map(|line| {
        let (line, names) = match line.strip_prefix("TREWIZLOW_STRUCT(") {
            Some(line) => (line, 1),
            None => (line.strip_prefix("TREWIZLOW_FIELD(")?, 2),
        };
        Some(line.split(", ").take(names).collect::<Vec<_>>().join(" "))
    });
    asserted.collect()
}

/// The names of a function's parameters; `name` finds a parameter's in its declaration.
pub fn parameters(source: &str, function: &str, name: fn(&str) -> &str) -> Vec<String> {
    let list = between(source, &format!(" {function}("), ")");
    let declarations = list.split(',').map(str::trim).filter(|word| !word.is_empty());
    declarations.map(|declaration| name(declaration).to_string()).collect()
}

pub fn name_in_rust(declaration: &str) -> &str {
    match declaration.split(':').next().expect("a name") {
        // `type` is a keyword.
        "kind" => "type",
        name => name,
    }
}
