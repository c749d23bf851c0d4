//! Appended to builder.rs as a child module: the steps of `build`, one by one, and the private map.

use super::{Ast, Model, ModelInfo, Rc, RefCell, Variable};

/// The root's model as `build` has it before `allocate_stmts`, and the tree node that `build` hands to that; or the text
/// that `build` returns where there is no such model.
pub fn flattened<'s>(
    name: &'s str,
    ast: &'s [Ast<'s>],
) -> Result<(ModelInfo<'s>, &'s Ast<'s>), String> {
    let models: Vec<&Model> = ast.iter().filter_map(|n| n.kind.as_model()).collect();
    let i = models
        .iter()
        .position(|v| v.name == name)
        .ok_or_else(|| format!("Model name {name} not found"))?;
    let other_models = [&models[..i], &models[i..]].concat();
    Ok((ModelInfo::builder(models[i], &other_models), &ast[i]))
}

/// `allocate_stmts`, the second step of `build`.
pub fn allocate_stmts<'s>(info: &mut ModelInfo<'s>, ast: &Ast<'s>) {
    info.allocate_stmts(ast)
}

/// `allocate_stmt` on one statement.
pub fn allocate_stmt<'s>(info: &mut ModelInfo<'s>, stmt: Ast<'s>) -> Option<Ast<'s>> {
    info.allocate_stmt(stmt)
}

/// The variables in the map's order.
pub fn variables<'s>(info: &ModelInfo<'s>) -> Vec<Rc<RefCell<Variable<'s>>>> {
    info.variables.values().cloned().collect()
}

/// The keys in the map's order.
pub fn keys<'s>(info: &ModelInfo<'s>) -> Vec<&'s str> {
    info.variables.iter().map(|(key, _)| *key).collect()
}
