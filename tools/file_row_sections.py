"""The rows of crates/file_rows/stdin stand in sections, one for each script that makes some. A section begins with a line `## TITLE`."""


def write_section(folder, title, rows):
    """Writes the section of this title anew, the others stay. The rows that are in all sections are counted again."""
    path = folder + '/stdin'
    try:
        with open(path) as old:
            parts = old.read().split('## ')[1:]
    except FileNotFoundError:
        parts = []
    sections = {part.split('\n', 1)[0]: part.split('\n', 1)[1].strip('\n') for part in parts}
    sections[title] = '\n'.join(rows).strip('\n')
    with open(path, 'w') as out:
        out.write('\n\n'.join(f'## {name}\n\n{body}' for name, body in sections.items()) + '\n')
    count = sum('|' in line for body in sections.values() for line in body.split('\n') if not line.startswith('#'))
    with open(folder + '/stdout', 'w') as out:
        out.write(f'{count} rows, 0 differ\n')
