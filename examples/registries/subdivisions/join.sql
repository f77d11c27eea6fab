-- What is found stands over what was typed. Of a name that stands twice in a country the first row is taken.
WITH found AS (
  SELECT * FROM subdivisions
  WHERE rowid IN (SELECT min(rowid) FROM subdivisions GROUP BY country, name COLLATE NOCASE)
)
SELECT
  dirty.country_code,
  dirty.name,
  coalesce(found.code, dirty.code),
  coalesce(found.type, dirty.type),
  coalesce(found.parent, dirty.parent),
  coalesce(parents.name, dirty.parent_name),
  coalesce(countries.name, dirty.country),
  coalesce(countries.alpha_3, dirty.alpha_3),
  coalesce(countries.numeric, dirty.numeric)
FROM dirty
LEFT JOIN found
  ON found.country = dirty.country_code COLLATE NOCASE AND found.name = dirty.name COLLATE NOCASE
LEFT JOIN subdivisions AS parents ON parents.code = found.parent
LEFT JOIN countries ON countries.alpha_2 = dirty.country_code COLLATE NOCASE
ORDER BY dirty.rowid;
