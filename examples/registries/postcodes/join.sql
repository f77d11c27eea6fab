-- What is found stands over what was typed. Of a postcode that stands twice the first row is taken.
WITH found AS (
  SELECT * FROM post
  WHERE rowid IN (SELECT min(rowid) FROM post GROUP BY code)
)
SELECT
  dirty.postcode,
  coalesce(found.place, dirty.place),
  coalesce(found.region, dirty.region),
  coalesce(states.code, dirty.region_code),
  coalesce(states.country, dirty.country_code),
  coalesce(countries.name, dirty.country)
FROM dirty
LEFT JOIN found ON found.code = dirty.postcode
LEFT JOIN states ON states.name = found.region
LEFT JOIN countries ON countries.alpha_2 = states.country
ORDER BY dirty.rowid;
