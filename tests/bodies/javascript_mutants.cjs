// The places of JavaScript files where a small mistake can be made, by the parser of Debian's node-typescript:
// `javascript_mutants.cjs FILE ..` writes them as JSON, a list for each file. A place is a kind, the offsets of a text, and
// another text. Offsets count code points, as Python has them.
const { readFileSync } = require('node:fs');
const ts = require('/usr/share/nodejs/typescript');

const Kind = ts.SyntaxKind;

const TURNED = { '<': '<=', '<=': '<', '>': '>=', '>=': '>', '===': '!==', '!==': '===', '&&': '||', '||': '&&', '??': '&&', '+': '-', '-': '+' };
const DROPPED = [Kind.ExpressionStatement, Kind.ThrowStatement, Kind.ContinueStatement, Kind.BreakStatement];
const EMPTIED = { [Kind.ArrayLiteralExpression]: '[]', [Kind.ObjectLiteralExpression]: '{}', [Kind.TemplateExpression]: "''" };
const OF_MODULES = [Kind.ImportDeclaration, Kind.ExportDeclaration];

function sitesOf(name) {
    const text = readFileSync(name, 'utf8');
    const source = ts.createSourceFile(name, text, ts.ScriptTarget.Latest, true, ts.ScriptKind.JS);
    const found = [];
    const of = (node) => text.slice(node.getStart(source), node.getEnd());
    const add = (kind, node, other, last = node) => found.push({ kind, start: node.getStart(source), end: last.getEnd(), new: other });

    function visit(node) {
        if (OF_MODULES.includes(node.kind)) {
            return;
        }
        if (node.kind === Kind.BinaryExpression && Object.hasOwn(TURNED, of(node.operatorToken))) {
            const sign = of(node.operatorToken);
            const kind = '+-'.includes(sign) ? 'sum' : '<=>=!==='.includes(sign) ? 'comparison' : 'and and or';
            // The sides keep their own meaning where the sign binds in another way.
            add(kind, node, `((${of(node.left)}) ${TURNED[sign]} (${of(node.right)}))`);
        }
        const isIf = [Kind.IfStatement, Kind.WhileStatement].includes(node.kind);
        const test = node.kind === Kind.ConditionalExpression ? node.condition : node.expression;
        if (isIf || node.kind === Kind.ConditionalExpression) {
            add('condition', test, `!(${of(test)})`);
        }
        if (node.kind === Kind.NumericLiteral && /^\d+$/.test(of(node))) {
            add('bound', node, String(Number(of(node)) + 1));
        }
        if ([Kind.StringLiteral, Kind.NoSubstitutionTemplateLiteral].includes(node.kind) && node.text.length > 1) {
            add('text', node, JSON.stringify(node.text.slice(1)));
        }
        if (DROPPED.includes(node.kind)) {
            add('statement', node, ';');
        }
        if (node.kind === Kind.ReturnStatement && node.expression) {
            const empty = EMPTIED[node.expression.kind] ?? 'undefined';
            if (of(node.expression) !== empty) {
                add('return', node, `return ${empty};`);
            }
        }
        if (node.kind === Kind.CallExpression && node.arguments.length === 2 && !node.arguments.some((one) => one.kind === Kind.SpreadElement)) {
            const [one, other] = node.arguments;
            add('arguments', one, `${of(other)}, ${of(one)}`, other);
        }
        ts.forEachChild(node, visit);
    }
    visit(source);
    return found.map((site) => ({ ...site, start: [...text.slice(0, site.start)].length, end: [...text.slice(0, site.end)].length }));
}

process.stdout.write(JSON.stringify(Object.fromEntries(process.argv.slice(2).map((name) => [name, sitesOf(name)]))));
